import tables

tables.plain('.', 't', 's3://lake/t', entry_by=lambda entry: entry.update({"status": 0}))
