import tables

tables.replace('t/metadata/v1.metadata.json', b'"6c5cbd5c', b'"x')
