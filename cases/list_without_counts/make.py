import tables

tables.field_with(504, tables.LIST_ROW)["field-id"] = 994
tables.plain('.', 't', 's3://lake/t', row_by=lambda row: None)
