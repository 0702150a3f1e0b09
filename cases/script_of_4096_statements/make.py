import tables

LINES = "event s.%d plan v1\nanswer s.%d null id\n"
tables.write("script.sql", b"SESSION s;\n" + b"INSERT INTO t VALUES (NULL, NULL);\n" * 4096)
tables.write("report", "".join(LINES % (n, n) for n in range(1, 4097)).encode() + b"branch main 0\n")
