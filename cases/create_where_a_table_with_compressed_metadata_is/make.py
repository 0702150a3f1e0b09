import tables

for number in (0, 3, 4):
    tables.write('t/metadata/v%d.gz.metadata.json' % number, b'')
