import tables


def moved(metadata):
    metadata["location"] = 's3://lake/t//'
    metadata["snapshots"][0]["manifest-list"] = 's3://lake/t/metadata/snap-1.avro'


tables.change("t/metadata/v1.metadata.json", moved)
