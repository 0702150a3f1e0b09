import tables

tables.change('t/metadata/v1.metadata.json', lambda metadata: metadata.update({"last-sequence-number": 2 ** 62}))
