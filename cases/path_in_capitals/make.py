import tables


def moved(metadata):
    metadata["location"] = 's3://lake/t'
    metadata["snapshots"][0]["manifest-list"] = 's3://lake/T/metadata/snap-1.avro'


tables.plain(".", "T", "s3://lake/t")
tables.change("t/metadata/v1.metadata.json", moved)
