import tables

tables.change('t/metadata/v1.metadata.json', lambda metadata: metadata.update({"partition-specs": [{"spec-id": 0, "fields": [{"source-id": 1, "field-id": 1000, "name": "id", "transform": "identity"}]}], "last-partition-id": 1000}))
