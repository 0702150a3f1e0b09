import os
import tables

tables.plain(".", "t", "s3://lake/t")
os.rename("t/metadata/v1.metadata.json", "t/metadata/v10.metadata.json")
for name in ("v0.metadata.json", "v2.metadata.json", "v9.metadata.json", "v011.metadata.json", "v4294967296.metadata.json", "v13"):
    tables.write("t/metadata/" + name, b"no version of this table")
