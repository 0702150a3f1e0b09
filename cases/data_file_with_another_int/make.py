import json

import tables

OTHER = tables.field(9, "other", "int")
SCHEMA = json.dumps(tables.record("table", OTHER, tables.field(1, "id", "long"), tables.field(2, "name", tables.optional("string")))).encode()
tables.write("t/data/a.avro", tables.header(("avro.schema", SCHEMA)) + tables.block(1, b'\xff\xff\xff\xff\x0f' + b"\x02\x00"))
