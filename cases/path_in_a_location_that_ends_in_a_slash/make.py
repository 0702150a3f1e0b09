import tables

tables.plain('.', 't', 's3://b/t')
tables.change('t/metadata/v1.metadata.json', lambda metadata: metadata.update({'location': 's3://b/t/'}))
