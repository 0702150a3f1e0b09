import tables

tables.write("script.sql", b"SESSION s;\nDELETE FROM t WHERE name =\n'" + b"x" * 131073 + b"';")
