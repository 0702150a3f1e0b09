import tables

tables.change('t/metadata/v1.metadata.json', lambda metadata: metadata.update({"statistics": [], "snapshot-log": [], "refs": {"main": {"snapshot-id": 1, "type": "branch", "max-ref-age-ms": 9}}, "properties": {"owner": "o", "commit.retry.num-retries": "4"}}))
