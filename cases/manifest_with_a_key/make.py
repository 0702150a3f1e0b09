import tables

tables.field_with(2, tables.ENTRY)["type"]["fields"].append(tables.field(131, "key_metadata", tables.optional("bytes")))
tables.plain('.', 't', 's3://lake/t', entry_by=lambda entry: entry["data_file"].update({"key_metadata": b"k"}))
