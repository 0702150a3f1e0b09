import json

import tables

OTHER = tables.field(9, "other", {"type": "record", "fields": []})
SCHEMA = json.dumps(tables.record("table", OTHER, tables.field(1, "id", "long"), tables.field(2, "name", tables.optional("string")))).encode()
tables.write("t/data/a.avro", tables.header(("avro.schema", SCHEMA)) + tables.block(1, b'' + b"\x02\x00"))
