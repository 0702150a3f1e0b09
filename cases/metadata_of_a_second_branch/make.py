import tables

tables.change('t/metadata/v1.metadata.json', lambda metadata: metadata.update({"refs": {"main": {"snapshot-id": 1, "type": "branch"}, "b": {"snapshot-id": 1, "type": "branch"}}}))
