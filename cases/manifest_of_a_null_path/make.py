import tables

tables.field_with(100, tables.ENTRY)["type"] = tables.optional("string")
tables.plain('.', 't', 's3://lake/t', entry_by=lambda entry: entry["data_file"].update({"file_path": None}))
