import json

import tables

OTHER = tables.field(9, "other", {"type": "enum", "name": "e", "symbols": ["A"]})
SCHEMA = json.dumps(tables.record("table", OTHER, tables.field(1, "id", "long"), tables.field(2, "name", tables.optional("string")))).encode()
tables.write("t/data/a.avro", tables.header(("avro.schema", SCHEMA)) + tables.block(1, b'\x02' + b"\x02\x00"))
