"""Writes tables of format version 2, with uncompressed Avro files, for the samples and the benchmark.

It has no dependency beyond Python's own library, so that the tables are made by nothing that the program is made of.
"""

import json
import os
import struct

SYNC = b"iceberg-dml-sync"


# ---- Avro's binary encoding

def long(n):
    n = (n << 1) ^ (n >> 63)
    out = bytearray()
    while n >= 0x80:
        out.append(n & 0x7F | 0x80)
        n >>= 7
    out.append(n)
    return bytes(out)


def octets(b):
    return long(len(b)) + b


def encode(schema, value):
    """The bytes of a value; a union is given as (branch, value), or as None where one branch is null."""
    if isinstance(schema, list):
        if value is None:
            return long(schema.index("null"))
        branch, value = value if isinstance(value, tuple) else (1 - schema.index("null"), value)
        return long(branch) + encode(schema[branch], value)
    kind = schema["type"] if isinstance(schema, dict) else schema
    if kind == "null":
        return b""
    if kind == "boolean":
        return b"\x01" if value else b"\x00"
    if kind in ("int", "long"):
        return long(value)
    if kind == "bytes":
        return octets(value)
    if kind == "string":
        return octets(value.encode())
    if kind == "array":
        items = b"".join(encode(schema["items"], v) for v in value)
        return (long(len(value)) + items if value else b"") + long(0)
    if kind == "record":
        return b"".join(encode(f["type"], value[f["name"]]) for f in schema["fields"])
    raise ValueError(kind)


def header(*pairs):
    """The header of a file with these keys and values."""
    out = b"Obj\x01" + long(len(pairs))
    for key, value in pairs:
        out += octets(key.encode()) + octets(value)
    return out + long(0) + SYNC


def block(count, data):
    return long(count) + long(len(data)) + data + SYNC


def container(schema, blocks, meta=()):
    pairs = [("avro.schema", json.dumps(schema, separators=(",", ":")).encode()), ("avro.codec", b"null")]
    out = header(*pairs, *((k, v.encode()) for k, v in meta))
    for datums in blocks:
        out += block(len(datums), b"".join(encode(schema, v) for v in datums))
    return out


def optional(kind):
    return ["null", kind]


def field(fid, name, kind):
    return {"name": name, "type": kind, "field-id": fid}


def record(name, *fields):
    return {"type": "record", "name": name, "fields": list(fields)}


def field_with(fid, schema):
    """The field with this id in a record, or in what it holds."""
    if isinstance(schema, list):
        return next(filter(None, (field_with(fid, branch) for branch in schema)), None)
    if not isinstance(schema, dict):
        return None
    for held in schema.get("fields", []):
        found = held if held["field-id"] == fid else field_with(fid, held["type"])
        if found:
            return found
    return field_with(fid, schema.get("items"))


# ---- manifests and lists

def pairs(fid, key, value, kind):
    item = record("k%d_v%d" % (key, value), field(key, "key", "int"), field(value, "value", kind))
    return ["null", {"type": "array", "items": item, "logicalType": "map"}]


ENTRY = record(
    "manifest_entry",
    field(0, "status", "int"),
    field(1, "snapshot_id", optional("long")),
    field(3, "sequence_number", optional("long")),
    field(4, "file_sequence_number", optional("long")),
    field(2, "data_file", record(
        "r2",
        field(134, "content", "int"),
        field(100, "file_path", "string"),
        field(101, "file_format", "string"),
        field(102, "partition", record("r102")),
        field(103, "record_count", "long"),
        field(104, "file_size_in_bytes", "long"),
        field(109, "value_counts", pairs(109, 119, 120, "long")),
        field(110, "null_value_counts", pairs(110, 121, 122, "long")),
        field(125, "lower_bounds", pairs(125, 126, 127, "bytes")),
        field(128, "upper_bounds", pairs(128, 129, 130, "bytes")),
    )),
)

LIST_ROW = record(
    "manifest_file",
    field(500, "manifest_path", "string"),
    field(501, "manifest_length", "long"),
    field(502, "partition_spec_id", "int"),
    field(517, "content", "int"),
    field(515, "sequence_number", "long"),
    field(516, "min_sequence_number", "long"),
    field(503, "added_snapshot_id", "long"),
    field(504, "added_files_count", "int"),
    field(505, "existing_files_count", "int"),
    field(506, "deleted_files_count", "int"),
    field(512, "added_rows_count", "long"),
    field(513, "existing_rows_count", "long"),
    field(514, "deleted_rows_count", "long"),
)


def bound(v):
    return struct.pack("<q", v) if isinstance(v, int) else v.encode()


def statistics(columns, rows):
    """Exact counts and bounds of rows, by column id."""
    values, nulls, lower, upper = [], [], [], []
    for place, (cid, _, _, _) in enumerate(columns):
        found = [row[place] for row in rows if row[place] is not None]
        values.append({"key": cid, "value": len(rows)})
        nulls.append({"key": cid, "value": len(rows) - len(found)})
        if found:
            least = min(found, key=lambda v: v if isinstance(v, int) else v.encode())
            greatest = max(found, key=lambda v: v if isinstance(v, int) else v.encode())
            lower.append({"key": cid, "value": bound(least)})
            upper.append({"key": cid, "value": bound(greatest)})
    return {"value_counts": values, "null_value_counts": nulls, "lower_bounds": lower, "upper_bounds": upper}


def write(path, data):
    os.makedirs(os.path.dirname(path) or ".", exist_ok=True)
    with open(path, "wb") as out:
        out.write(data)


def read(path):
    with open(path, "rb") as held:
        return held.read()


def replace(path, old, new):
    """Puts other bytes in the place of some that stand once in a file."""
    data = read(path)
    if data.count(old) != 1:
        raise ValueError("%r stands %d times in %s" % (old, data.count(old), path))
    write(path, data.replace(old, new))


def change(path, how):
    """Changes the object of a JSON file by a function."""
    held = json.loads(read(path))
    how(held)
    write(path, json.dumps(held, separators=(",", ":")).encode())


class Table:
    """A table in a folder below root, with columns given as (id, name, kind, required). Its location is the folder's name
    where none is given."""

    def __init__(self, root, name, columns, location=None):
        self.root, self.name, self.columns = root, name, columns
        self.location = name if location is None else location

    def write(self, path, data):
        """Writes a file of the table: its path, as the table's files tell it, and its size."""
        write(os.path.join(self.root, self.name, path), data)
        return "%s/%s" % (self.location, path), len(data)

    def data_schema(self):
        kinds = [kind if required else optional(kind) for _, _, kind, required in self.columns]
        return record("table", *[field(c[0], c[1], k) for c, k in zip(self.columns, kinds)])

    def data_file(self, name, rows, block=1000):
        """A data file in the table's own columns: its path, size, rows and statistics."""
        names = [c[1] for c in self.columns]
        datums = [dict(zip(names, row)) for row in rows]
        blocks = [datums[i:i + block] for i in range(0, len(datums), block)]
        path, size = self.write("data/%s" % name, container(self.data_schema(), blocks))
        return path, size, len(rows), statistics(self.columns, rows)

    def other_file(self, name, schema, blocks, rows):
        """A data file in other columns, of which these rows are read."""
        path, size = self.write("data/%s" % name, container(schema, blocks))
        return path, size, len(rows), statistics(self.columns, rows)

    @staticmethod
    def entry(status, file, numbers=(None, None, None)):
        path, size, count, facts = file
        snapshot, seq, file_seq = numbers
        data_file = {"content": 0, "file_path": path, "file_format": "AVRO", "partition": {}, "record_count": count,
                     "file_size_in_bytes": size}
        data_file.update(facts)
        return {"status": status, "snapshot_id": snapshot, "sequence_number": seq, "file_sequence_number": file_seq,
                "data_file": data_file}

    def manifest(self, name, entries, seq, snapshot, least=None):
        """A manifest, and its row in a list."""
        path, size = self.write("metadata/%s" % name, container(ENTRY, [entries]))
        counts = {}
        for status, what in ((0, "existing"), (1, "added"), (2, "deleted")):
            chosen = [e for e in entries if e["status"] == status]
            counts[what + "_files_count"] = len(chosen)
            counts[what + "_rows_count"] = sum(e["data_file"]["record_count"] for e in chosen)
        row = {"manifest_path": path, "manifest_length": size, "partition_spec_id": 0, "content": 0,
               "sequence_number": seq, "min_sequence_number": seq if least is None else least,
               "added_snapshot_id": snapshot}
        row.update(counts)
        return row

    def version(self, number, snapshots, seq):
        """A version's metadata; snapshots are (id, parent, sequence number, rows of its list)."""
        listed = []
        for sid, parent, sseq, rows in snapshots:
            path, _ = self.write("metadata/snap-%d.avro" % sid, container(LIST_ROW, [rows] if rows else []))
            item = {"snapshot-id": sid, "sequence-number": sseq, "timestamp-ms": 1700000000000 + sid,
                    "manifest-list": path, "summary": {"operation": "append"}, "schema-id": 0}
            if parent is not None:
                item["parent-snapshot-id"] = parent
            listed.append(item)
        fields = [{"id": cid, "name": name, "required": required, "type": kind}
                  for cid, name, kind, required in self.columns]
        metadata = {
            "format-version": 2, "table-uuid": "6c5cbd5c-3f9f-5b8c-9a53-5f6d5f1f0a11", "location": self.location,
            "last-sequence-number": seq, "last-updated-ms": 1700000000000 + len(listed), "last-column-id": 2,
            "schemas": [{"type": "struct", "schema-id": 0, "fields": fields}], "current-schema-id": 0,
            "partition-specs": [{"spec-id": 0, "fields": []}], "default-spec-id": 0, "last-partition-id": 999,
            "properties": {}, "sort-orders": [{"order-id": 0, "fields": []}], "default-sort-order-id": 0,
        }
        if listed:
            metadata["current-snapshot-id"] = listed[-1]["snapshot-id"]
            metadata["snapshots"] = listed
        text = json.dumps(metadata, separators=(",", ":"))
        self.write("metadata/v%d.metadata.json" % number, text.encode())


COLUMNS = [(1, "id", "long", True), (2, "name", "string", False)]


def empty(root, name, location=None):
    """No snapshot."""
    Table(root, name, COLUMNS, location).version(1, [], 0)


def plain(root, name, location=None, entry_by=None, row_by=None):
    """One snapshot, one manifest, one data file: (2, NULL) and (1, 'x').

    A function may change the entry of the manifest before that is written, and another the row of the list."""
    table = Table(root, name, COLUMNS, location)
    file = table.data_file("a.avro", [(2, None), (1, "x")])
    entry = table.entry(1, file)
    if entry_by:
        entry_by(entry)
    row = table.manifest("m1.avro", [entry], 1, 1)
    if row_by:
        row_by(row)
    table.version(1, [(1, None, 1, [row])], 1)


def mixed(root, name, location=None):
    """Two snapshots and three manifests, with files of other columns, and a file that was deleted."""
    table = Table(root, name, COLUMNS, location)
    quoted = table.data_file("quoted.avro", [(3, 'a "b", c'), (4, "two\nlines"), (5, "\\N")], block=2)
    gone = table.data_file("gone.avro", [(6, "gone")])
    # Found by ids: the columns in another order, an int for the long, null second, and a column that no schema has.
    swapped = record("table", field(9, "other", "boolean"), field(2, "label", ["string", "null"]), field(1, "key", "int"))
    other = table.other_file("other.avro", swapped,
                             [[{"other": True, "label": "ü", "key": 7}], [{"other": False, "label": None, "key": -8}]],
                             [(7, "ü"), (-8, None)])
    short = record("table", field(1, "id", "long"))
    lacking = table.other_file("lacking.avro", short, [[{"id": 9}, {"id": 9}]], [(9, None), (9, None)])
    first = table.manifest("m1.avro", [table.entry(1, quoted), table.entry(1, gone)], 1, 1)
    rewritten = table.manifest("m2.avro", [table.entry(0, quoted, (1, 1, 1)), table.entry(2, gone, (2, 1, 1))], 2, 2, 1)
    second = table.manifest("m3.avro", [table.entry(1, other)], 2, 2)
    third = table.manifest("m4.avro", [table.entry(1, lacking)], 2, 2)
    table.version(1, [(1, None, 1, [first])], 1)
    table.version(2, [(1, None, 1, [first]), (2, 1, 2, [third, second, rewritten])], 2)


def repeated(root, name, location=None):
    """One snapshot, of which one manifest names the file b.avro twice, and two name a.avro."""
    table = Table(root, name, COLUMNS, location)
    a, b, c = (table.data_file(file, [(n, file)]) for n, file in enumerate(("a.avro", "b.avro", "c.avro")))
    named = ("m1.avro", [b, c, b]), ("m2.avro", [a]), ("m3.avro", [a])
    rows = [table.manifest(manifest, [table.entry(1, file) for file in files], 1, 1) for manifest, files in named]
    table.version(1, [(1, None, 1, rows)], 1)
