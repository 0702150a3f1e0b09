import tables

tables.plain('.', 't', 's3://lake/t', entry_by=lambda entry: entry["data_file"].update({"file_format": "avro"}))
