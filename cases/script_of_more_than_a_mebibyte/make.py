import tables

tables.write("script.sql", b"SESSION s;\n" + b" " * 2 ** 20)
