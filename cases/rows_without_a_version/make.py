import tables
tables.write('t/metadata/v01.metadata.json', b'{}')
tables.write('t/metadata/v1.json', b'{}')
