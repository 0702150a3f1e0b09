import tables

tables.change('t/metadata/v1.metadata.json', lambda metadata: metadata.update({"last-column-id": 2 ** 31}))
