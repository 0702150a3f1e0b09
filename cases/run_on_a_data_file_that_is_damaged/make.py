import tables

tables.write("t/data/a.avro", tables.read("t/data/a.avro")[:-1])
