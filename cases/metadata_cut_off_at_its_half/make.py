import tables

data = tables.read('t/metadata/v1.metadata.json')
tables.write('t/metadata/v1.metadata.json', data[:len(data) // 2])
