import tables

data = tables.read('t/metadata/m1.avro')
tables.write('t/metadata/m1.avro', data[:len(data) // 2])
