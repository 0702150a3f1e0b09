import tables

SCHEMA = b'{"doc":"d","type":"record","name":"n.r","aliases":["q"],"x":{"name":["y",1]},"fields":[{"name":"a","field-id":1,"type":{"type":"long","x":{"logicalType":"decimal"}},"doc":"d","aliases":["b"],"order":"ignore","default":7},{"name":"b","field-id":2,"type":["null","string"]}]}'
tables.write("t/data/a.avro", tables.header(("avro.schema", SCHEMA)) + tables.block(2, b"\x04\x00\x02\x02\x02x"))
