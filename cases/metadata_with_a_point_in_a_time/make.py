import tables

tables.replace('t/metadata/v1.metadata.json', b'"last-updated-ms":1700000000001', b'"last-updated-ms":1700000000001.0')
