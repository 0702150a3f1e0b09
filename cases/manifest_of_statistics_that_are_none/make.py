import tables

tables.plain('.', 't', 's3://lake/t', entry_by=lambda entry: entry["data_file"].update({"value_counts": [{"key": 2, "value": -1}, {"key": 9, "value": 3}], "lower_bounds": [{"key": 1, "value": b"\x01"}, {"key": 9, "value": b""}]}))
