import tables

tables.write("script.sql", b"SESSION s; INSERT INTO t VALUES " + b", ".join(b"(%d, NULL)" % n for n in range(2001)) + b"; DELETE FROM t WHERE id = 1000;")
tables.write("rows", b"".join(sorted(b"row %d,\\N\n" % n for n in range(2001) if n != 1000)))
