"""Lets other readers of Avro read what the proved program writes: `python3 cases/readers.py [PROGRAM]`.

The program makes tables, changes them, and after each script says which rows there are. Then each reader that is installed reads every Avro
file of these tables. All of them must give the same records; the rows of the live data files, found by a reader's lists and manifests, must
be those that the program printed; and what lists and manifests count must be what the reader finds in the files. The readers, by the Debian
package: python3-avro, avro-bin (avro-c) and libavro-java. One line is printed for each check that fails and for each reader that is passed
over, and last a line that counts the checks.
"""

import functools
import json
import os
import shutil
import sys
import tempfile

sys.dont_write_bytecode = True
from check import HERE, PROGRAM, files_below, tables  # noqa: E402
from folder import LOCATION, Tally, bag_faults, ended, rows_of, script, start  # noqa: E402

READ_SECONDS = 120
STATUSES = ("existing", "added", "deleted")


# ---- readers: each takes paths, and gives for each the records of the file there, or a text that says what is wrong

# The Python of the system, for which Debian's package is.
PYTHON = "/usr/bin/python3"
READ_BY_PYTHON = """
import json, sys, warnings
from avro.datafile import DataFileReader
from avro.io import DatumReader
warnings.simplefilter("ignore")
for path in sys.argv[1:]:
    try:
        with DataFileReader(open(path, "rb"), DatumReader()) as held:
            print(json.dumps(list(held), default=lambda it: {"bytes": it.decode("latin-1")}))
    except Exception as fault:
        print(json.dumps("%s: %s" % (type(fault).__name__, fault)))
"""
JARS = ["/usr/share/java/%s.jar" % it for it in ("avro", "jackson-core-asl", "jackson-mapper-asl", "commons-compress", "slf4j-api")]


def by_lines(words, paths):
    """What a program prints that takes all paths and prints a line for each file."""
    report, status = ended(start([*words, *paths], HERE), READ_SECONDS)
    lines = report.splitlines()
    if status != 0 or len(lines) != len(paths):
        return ["the reader has status %s and prints %d lines" % (status, len(lines))] * len(paths)
    return [json.loads(it) for it in lines]


def untagged(value):
    """A value of avrocat without the name of its branch of a union."""
    if isinstance(value, list):
        return [untagged(it) for it in value]
    if isinstance(value, dict):
        tag = next(iter(value)) if len(value) == 1 else None
        return untagged(value[tag]) if tag in ("array", "int", "long", "string") else {key: untagged(it) for key, it in value.items()}
    return value


def by_avrocat(paths):
    """One run for each file; a record is a line."""
    def records(path):
        report, status = ended(start(["avrocat", path], HERE), READ_SECONDS)
        return [untagged(json.loads(it)) for it in report.splitlines()] if status == 0 else "status %s" % status
    return [records(it) for it in paths]


def as_avrocat(value):
    """A value of another reader as avrocat prints it: bytes as a text, which it ends before the first zero."""
    if isinstance(value, list):
        return [as_avrocat(it) for it in value]
    if isinstance(value, dict):
        return value["bytes"].split("\0")[0] if list(value) == ["bytes"] else {key: as_avrocat(it) for key, it in value.items()}
    return value


def installed():
    """The name and the function of each reader that is here."""
    has_python = os.access(PYTHON, os.X_OK) and ended(start([PYTHON, "-c", "import avro.datafile"], HERE))[1] == 0
    has_java = shutil.which("java") and all(map(os.path.exists, JARS))
    java = ["java", "-cp", ":".join(JARS), os.path.join(HERE, "readers_java", "ReadAvro.java")]
    readers = [
        ("python3-avro", has_python, functools.partial(by_lines, [PYTHON, "-c", READ_BY_PYTHON])),
        ("avro-bin", shutil.which("avrocat"), by_avrocat),
        ("libavro-java", has_java, functools.partial(by_lines, java)),
    ]
    for name, is_here, _ in readers:
        if not is_here:
            print("readers: %s is missing, so it is passed over" % name)
    return [(name, read) for name, is_here, read in readers if is_here]


# ---- tables: how each is made, and the statements of each script

def schema_of(*columns):
    return {"schema": {"type": "struct", "schema-id": 0, "fields": [dict(zip(("id", "name", "required", "type"), it)) for it in columns]}}


TEXTS = ("", "x", "it''s", 'a "b", c', "ü 😀 \u200b", "two\nlines\r", "\\N", "\\", "NULL", "\x01\x7f", "long " * 200)
WORDED = ", ".join("(%d, '%s')" % it for it in enumerate(TEXTS))
NUMBERS = ", ".join("(%d)" % it for it in (0, -1, 63, 64, -65, 2 ** 31, -(2 ** 31) - 1, 2 ** 63 - 1, -(2 ** 63)))
MANY = ", ".join("(%d, %s)" % (it, "NULL" if it % 3 else "'n%d'" % it) for it in range(2500))
TABLES = {
    "texts": (schema_of((1, "id", True, "long"), (2, "name", False, "string")), [
        ["INSERT INTO t VALUES " + WORDED],
        ["INSERT INTO t VALUES (20, NULL)", "INSERT INTO t VALUES (21, 'y'), (21, 'y')"],
        ["DELETE FROM t WHERE id = 1", "DELETE FROM t WHERE name = 'y'", "DELETE FROM t WHERE name = 'no such'"],
        ["DELETE FROM t"],
    ]),
    "numbers": (schema_of((7, "größe", False, "long")), [
        ["INSERT INTO t VALUES %s, (NULL)" % NUMBERS], ["DELETE FROM t WHERE `größe` = 64", "INSERT INTO t VALUES (NULL)"],
    ]),
    "names that are none of Avro": (schema_of((5, "a b", True, "string"), (2, "größe", False, "long"), (9, "note", False, "string"),
                                              (4, "n", True, "long")), [
        ["INSERT INTO t VALUES ('ä', NULL, NULL, 1), ('', 2, 'it''s', 3)"],
        ["DELETE FROM t WHERE `a b` = ''", "INSERT INTO t VALUES ('c', 4, '', 5)"],
    ]),
    "blocks": (schema_of((1, "id", True, "long"), (2, "name", False, "string")), [
        ["INSERT INTO t VALUES " + MANY], ["DELETE FROM t WHERE id = 1500"],
        ["INSERT INTO t VALUES (1, 'z')", "DELETE FROM t WHERE name = 'n3'"],
    ]),
    "statistics and other columns": (None, [
        ["DELETE FROM t WHERE id = 3"], ["INSERT INTO t VALUES (10, 'ß')"],
        ["DELETE FROM t WHERE name = 'ü'", "DELETE FROM t WHERE id = 9"],
    ]),
}


def current(folder):
    """The metadata of the table's greatest version."""
    metadata = os.path.join(folder, "t", "metadata")
    names = [it for it in os.listdir(metadata) if it.endswith(".metadata.json") and it.startswith("v")]
    return json.loads(tables.read(os.path.join(metadata, max(names, key=lambda it: int(it[1:].split(".")[0])))))


def made_faults(tally, name, found):
    """Makes a table, and keeps its folder and, after each script, its metadata and the rows that the program prints."""
    (schema, scripts), (folder, states) = TABLES[name], found.setdefault(name, (os.path.join(tally.room, name), []))
    os.mkdir(folder)
    runs = [script(folder, "%d.sql" % at, "s%d" % at, *it) for at, it in enumerate(scripts)]
    if schema:
        tables.write(os.path.join(folder, "schema.json"), json.dumps(schema).encode())
        runs.insert(0, ["create", "--table", "t", "--schema", "schema.json"])
    else:
        tables.mixed(folder, "t", LOCATION)
    for words in runs:
        report, status = ended(start([tally.program, *words], folder))
        if status != 0:
            yield "%s has status %s: %r" % (words, status, report[-200:])
        states.append((current(folder), rows_of(tally.program, folder)))


# ---- checks

def field(value):
    """A value in a record as the program prints it."""
    text = "\\N" if value is None else "\\" * (isinstance(value, str) and value.startswith("\\")) + str(value)
    return '"%s"' % text.replace('"', '""') if set(text) & set(',"\r\n') else text


def printed(values):
    fields = list(map(field, values))
    return (",".join(fields) if fields != [""] else '""').replace("\n", "\\n").encode()


def names_of(path):
    """The name of each field in the schema of an Avro file, by its id."""
    text = tables.read(path).partition(b"avro.schema")[2]
    schema, _ = json.JSONDecoder().raw_decode(text[text.index(b'{"'):].decode(errors="replace"))
    return {it["field-id"]: it["name"] for it in schema["fields"]}


class Seen:
    """A table as one reader sees it: the records of each Avro file, by the path that the table's files tell."""

    def __init__(self, folder, records, location):
        self.folder, self.records, self.location = folder, records, location

    def real(self, path):
        return os.path.join(self.folder, "t", path[len(self.location) + 1:])

    def told(self, path):
        return self.records[self.real(path)]

    def row_faults(self, metadata, rows):
        """Says how the rows of a version differ from those that the program printed."""
        found, ids = [], [it["id"] for it in metadata["schemas"][0]["fields"]]
        lists = [it["manifest-list"] for it in metadata.get("snapshots", []) if it["snapshot-id"] == metadata["current-snapshot-id"]]
        for entry in [entry for path in lists for row in self.told(path) for entry in self.told(row["manifest_path"])]:
            path = entry["data_file"]["file_path"]
            if entry["status"] != STATUSES.index("deleted"):
                names = names_of(self.real(path))
                found += [printed([it.get(names.get(id)) for id in ids]) for it in self.told(path)]
        return bag_faults(found, rows)

    def list_faults(self, path):
        """Says which row of a list counts otherwise than its manifest, and which entry otherwise than its data file."""
        for row in self.records[path]:
            manifest = self.real(row["manifest_path"])
            counts = {"manifest_length": os.path.getsize(manifest)}
            counts.update((status + what, 0) for status in STATUSES for what in ("_files_count", "_rows_count"))
            for entry in self.records[manifest]:
                file, status = entry["data_file"], STATUSES[entry["status"]]
                data = self.real(file["file_path"])
                held = len(self.records[data])
                counts[status + "_files_count"] += 1
                counts[status + "_rows_count"] += held
                if (file["record_count"], file["file_size_in_bytes"]) != (held, os.path.getsize(data)):
                    yield "%s has %d rows, and its entry is %s" % (os.path.basename(data), held, file)
            if counts != {key: row[key] for key in counts}:
                yield "the counts are %s of %s" % (counts, row)


def same_faults(first, other, path):
    """Says whether a reader gives other records of a file than the first reader, or none."""
    how = as_avrocat if "avro-bin" in (first[0], other[0]) else list
    if not isinstance(other[1][path], list):
        yield other[1][path]
    elif how(first[1][path]) != how(other[1][path]):
        yield "it reads %.500r, and %s reads %.500r" % (other[1][path], first[0], first[1][path])


def main(words):
    program = os.path.abspath(words[0] if words else PROGRAM)
    if not os.access(program, os.X_OK):
        print("cases/readers.py: there is no program %s, so nothing was checked" % os.path.relpath(program))
        return 0
    readers = installed()
    with tempfile.TemporaryDirectory(prefix="readers-") as room:
        tally, found = Tally(room, program), {}
        tally.checks("tables", [(name, functools.partial(made_faults, tally, name, found)) for name in TABLES])
        paths = sorted(os.path.join(room, it) for it in files_below(room) if it.endswith(".avro"))
        given = [(name, dict(zip(paths, read(paths)))) for name, read in readers]
        for other in given:
            tally.checks(other[0], [(os.path.relpath(it, room), functools.partial(same_faults, given[0], other, it)) for it in paths])
            for name, (folder, states) in [it for it in found.items() if it[1][1]]:
                seen = Seen(folder, other[1], states[-1][0]["location"])
                lists = [seen.real(it["manifest-list"]) for it in states[-1][0].get("snapshots", [])]
                rows = [("rows %d" % at, functools.partial(seen.row_faults, *it)) for at, it in enumerate(states)]
                counts = [(os.path.basename(it), functools.partial(seen.list_faults, it)) for it in lists]
                tally.checks("%s, %s" % (other[0], name), rows + counts)
        print("readers: %d passed, %d failed" % (tally.passed, tally.failed))
    return 1 if tally.failed else 0


if __name__ == "__main__":
    sys.exit(main(sys.argv[1:]))
