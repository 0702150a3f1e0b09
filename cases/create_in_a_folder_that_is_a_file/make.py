import tables

tables.write('t', b'')
