import tables

tables.change('t/metadata/v1.metadata.json', lambda metadata: metadata["partition-specs"].append(metadata["partition-specs"][0]))
