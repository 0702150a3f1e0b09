import tables

tables.change('t/metadata/v1.metadata.json', lambda metadata: metadata["schemas"].append({"type": "struct", "schema-id": 1, "fields": [{"id": 1, "name": "id", "required": True, "type": "string"}]}))
