import tables

tables.change('t/metadata/v1.metadata.json', lambda metadata: metadata.update({'table-uuid': True}))
