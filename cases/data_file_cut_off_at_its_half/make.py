import tables

data = tables.read('t/data/a.avro')
tables.write('t/data/a.avro', data[:len(data) // 2])
