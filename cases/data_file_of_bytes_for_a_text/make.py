import tables

SCHEMA = b'{"type":"record","name":"r","fields":[{"name":"a","field-id":1,"type":"long"},{"name":"b","field-id":2,"type":["null","bytes"]}]}'
tables.write("t/data/a.avro", tables.header(("avro.schema", SCHEMA)) + tables.block(2, b"\x04\x00\x02\x02\x02x"))
