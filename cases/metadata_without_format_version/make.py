import tables

tables.change('t/metadata/v1.metadata.json', lambda metadata: metadata.pop('format-version'))
