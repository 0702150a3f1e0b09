import tables

tables.change('t/metadata/v1.metadata.json', lambda metadata: metadata["snapshots"].insert(0, dict(metadata["snapshots"][0], **{"snapshot-id": -1})))
