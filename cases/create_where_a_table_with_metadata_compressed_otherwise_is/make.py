import tables

tables.write('t/metadata/v12.metadata.json.gz', b'')
