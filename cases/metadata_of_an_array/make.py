import tables

tables.write('t/metadata/v1.metadata.json', b'[]')
