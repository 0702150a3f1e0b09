import tables

tables.change('t/metadata/v1.metadata.json', lambda metadata: metadata["snapshots"][0]["summary"].update({"operation": 1}))
