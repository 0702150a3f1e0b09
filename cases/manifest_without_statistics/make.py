import tables

tables.plain('.', 't', 's3://lake/t', entry_by=lambda entry: entry["data_file"].update(dict.fromkeys(("value_counts", "null_value_counts", "lower_bounds", "upper_bounds"))))
