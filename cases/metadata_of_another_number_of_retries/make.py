import tables

tables.change('t/metadata/v1.metadata.json', lambda metadata: metadata["properties"].update({"commit.retry.num-retries": "1000"}))
