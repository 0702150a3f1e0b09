import tables

tables.LIST_ROW["fields"].append(tables.field(519, "key_metadata", tables.optional("bytes")))
tables.plain('.', 't', 's3://lake/t', row_by=lambda row: row.update({"key_metadata": None}))
