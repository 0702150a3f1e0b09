import tables

tables.field_with(104, tables.ENTRY)["field-id"] = 994
tables.plain('.', 't', 's3://lake/t', entry_by=lambda entry: None)
