import json

import tables

SCHEMA = json.dumps(tables.Table(".", "t", tables.COLUMNS).data_schema()).encode()
DATUMS = b"\x04\x00\x02\x02\x02x"
tables.write("t/data/a.avro", tables.header(("avro.schema", SCHEMA)) + tables.block(2, DATUMS)[:-1])
