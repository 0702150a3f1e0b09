import tables

tables.change('t/metadata/v1.metadata.json', lambda metadata: metadata.update({"refs": {"main": {"snapshot-id": 1, "type": "head"}}}))
