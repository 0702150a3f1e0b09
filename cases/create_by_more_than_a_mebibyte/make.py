import tables

data = tables.read("schema.json")
tables.write("schema.json", b" " * (2 ** 20 + 1 - len(data)) + data)
