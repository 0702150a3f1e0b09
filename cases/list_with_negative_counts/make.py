import tables

tables.plain('.', 't', 's3://lake/t', row_by=lambda row: row.update({"added_files_count": -1, "added_rows_count": -7}))
