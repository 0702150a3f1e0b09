import tables

tables.field_with(503, tables.LIST_ROW)["field-id"] = 993
tables.plain('.', 't', 's3://lake/t', row_by=lambda row: None)
