import tables

tables.field_with(103, tables.ENTRY)["type"] = "int"
tables.plain('.', 't', 's3://lake/t', entry_by=lambda entry: None)
