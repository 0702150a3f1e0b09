import tables

tables.change('t/metadata/v1.metadata.json', lambda metadata: metadata["properties"].update({"write.delete.mode": "merge-on-read"}))
