import tables

tables.plain('.', 't', 's3://lake/t', entry_by=lambda entry: entry["data_file"]["value_counts"].append(entry["data_file"]["value_counts"][0]))
