import tables

SCHEMA = b'{"type":"record","name":"r","fields":[{"name":"a","field-id":1,"type":"string"},{"name":"b","field-id":2,"type":["null","string"]}]}'
tables.write("t/data/a.avro", tables.header(("avro.schema", SCHEMA)) + tables.block(2, b"\x04\x00\x02\x02\x02x"))
