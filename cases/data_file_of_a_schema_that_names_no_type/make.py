import tables

SCHEMA = b'"record"'
tables.write("t/data/a.avro", tables.header(("avro.schema", SCHEMA)) + tables.block(2, b"\x04\x00\x02\x02\x02x"))
