import tables

tables.write("script.sql", b"SESSION s;\n".ljust(2 ** 20))
