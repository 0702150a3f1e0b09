import tables

tables.plain('.', 't', 's3://lake/t', row_by=lambda row: row.update({"content": 2}))
