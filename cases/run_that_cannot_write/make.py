import tables

tables.write('t/data', b'')
