import tables

tables.change('t/metadata/v1.metadata.json', lambda metadata: metadata["snapshots"][0].pop("manifest-list"))
