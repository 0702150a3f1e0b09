import tables

tables.plain('.', 't', 's3://lake/t', entry_by=lambda entry: (entry.update({"status": 2, "snapshot_id": 1, "sequence_number": 1, "file_sequence_number": 1}), entry["data_file"].update({"file_format": "ORC"})))
