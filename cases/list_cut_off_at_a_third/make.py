import tables

data = tables.read('t/metadata/snap-1.avro')
tables.write('t/metadata/snap-1.avro', data[:len(data) // 3])
