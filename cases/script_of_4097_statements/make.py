import tables

tables.write("script.sql", b"SESSION s;\n" + b"DELETE\nFROM t;\n" * 4097)
