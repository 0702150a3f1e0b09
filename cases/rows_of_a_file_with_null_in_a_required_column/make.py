import tables

tables.replace("t/metadata/v1.metadata.json", b'"name":"name","required":false', b'"name":"name","required":true')
