"""Measures `run` on a table of 500,000 rows of a long and a text, in eight data files: a DELETE of every tenth row, and an
INSERT of one row, beside a plain Rust program that reads, filters and writes the same data files.

    python3 bench/running.py         times and peak memory at 500,000 rows
    python3 bench/running.py count   instructions at 125,000 and 500,000 rows (valgrind, minutes)

The program has to be built before, by `rt run` in `crates/lazhuvettan`. What is made lies in `bench/out`. Each run works on a
copy of the table.
"""

import os
import random
import shutil
import subprocess
import sys

HERE = os.path.dirname(os.path.abspath(__file__))
OUT = os.path.join(HERE, "out")
sys.path.insert(0, os.path.join(HERE, "..", "samples"))

import measure  # noqa: E402
import tables  # noqa: E402

PROGRAM = os.path.join(HERE, "..", "crates", "lazhuvettan", "out", "lazhuvettan")
PLAIN = os.path.join(OUT, "plain_running")
SCRIPTS = {"delete.sql": "SESSION s; DELETE FROM t WHERE name = 'gone';", "insert.sql": "SESSION s; INSERT INTO t VALUES (1, 'one');"}
FILES = 8


def table(count):
    name = "run%d" % count
    if not os.path.exists(os.path.join(OUT, name, "metadata", "v1.metadata.json")):
        draw = random.Random(1)
        made = tables.Table(OUT, name, tables.COLUMNS)
        entries = []
        for file in range(FILES):
            rows = [(draw.getrandbits(40), "gone" if n % 10 == 3 else "%012d" % draw.randrange(10 ** 12)) for n in range(count // FILES)]
            entries.append(made.entry(1, made.data_file("a%d.avro" % file, rows)))
        made.version(1, [(1, None, 1, [made.manifest("m1.avro", entries, 1, 1)])], 1)
    return name


def fresh(name):
    """A copy of the table, of the same name, in a folder of its own."""
    folder = os.path.join(OUT, "copy")
    shutil.rmtree(folder, ignore_errors=True)
    shutil.copytree(os.path.join(OUT, name), os.path.join(folder, name))
    for script, text in SCRIPTS.items():
        with open(os.path.join(folder, script), "w") as file:
            file.write(text)
    return folder


def ours(name, script):
    return [PROGRAM, "run", "--table", name, "--script", script]


def timed(name, words):
    """The least time of three runs, each on a fresh copy, the most memory and the last output."""
    took, peak, text = None, 0, b""
    for _ in range(3):
        one, memory, text = measure.run(words, fresh(name), 1)
        took = one if took is None else min(took, one)
        peak = max(peak, memory)
    return took, peak, text


def main():
    os.makedirs(OUT, exist_ok=True)
    subprocess.run(["rustc", "-O", "-o", PLAIN, os.path.join(HERE, "plain_running.rs")], check=True)
    if sys.argv[1:] == ["count"]:
        for script in SCRIPTS:
            few, many = [measure.instructions(ours(table(n), script), fresh(table(n))) for n in (125000, 500000)]
            print("%s: %d and %d instructions, ratio %.2f" % (script, few, many, many / few))
        return
    name = table(500000)
    size = sum(os.path.getsize(os.path.join(OUT, name, "data", file)) for file in os.listdir(os.path.join(OUT, name, "data")))
    print("%d cores, data files of %.1f MB" % (os.cpu_count(), size / 1e6))
    for script in SCRIPTS:
        took, peak, text = timed(name, ours(name, script))
        kept, plain_peak, plain_text = timed(name, [PLAIN, name, script])
        if text.splitlines()[-1:] != plain_text.splitlines()[-1:]:
            sys.exit("the two programs leave different rows")
        print("%s: this program %.2f s  %.1f MB, plain program %.2f s  %.1f MB, ratio of times %.2f"
              % (script, took, peak / 1e6, kept, plain_peak / 1e6, took / kept))
    read, _, _ = timed(name, [PROGRAM, "rows", "--table", name])
    print("rows: %.2f s" % read)


if __name__ == "__main__":
    main()
