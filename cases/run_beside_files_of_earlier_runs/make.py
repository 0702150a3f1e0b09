import tables

for name in ("data/r1-s-1.avro", "metadata/r2-s-1.avro", "data/r03-s-1.avro", "data/r4.avro"):
    tables.write("t/" + name, b"of an earlier run")
