import json

import tables

SCHEMA = json.dumps(tables.record("table", tables.field(1, "id", tables.optional("long")))).encode()
tables.write("t/data/a.avro", tables.header(("avro.schema", SCHEMA)) + tables.block(1, b"\x00"))
