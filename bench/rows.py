"""Measures `rows` on tables of a long and a text of 12 bytes, beside a plain Rust program that does the same job.

    python3 bench/rows.py            times and peak memory at 1,000,000 rows
    python3 bench/rows.py count      instructions at 250,000 and 1,000,000 rows (valgrind, minutes)
    python3 bench/rows.py where      where the instructions go, at 10,000 rows

The program has to be built before, by `rt run` in `crates/lazhuvettan`. What is made lies in `bench/out`.
"""

import os
import random
import subprocess
import sys

HERE = os.path.dirname(os.path.abspath(__file__))
OUT = os.path.join(HERE, "out")
sys.path.insert(0, os.path.join(HERE, "..", "samples"))

import measure  # noqa: E402
import tables  # noqa: E402

PROGRAM = os.path.join(HERE, "..", "crates", "lazhuvettan", "out", "lazhuvettan")
PLAIN = os.path.join(OUT, "plain")


def table(count):
    name = "rows%d" % count
    if not os.path.exists(os.path.join(OUT, name, "metadata", "v1.metadata.json")):
        draw = random.Random(1)
        rows = [(draw.getrandbits(40), "%012d" % draw.randrange(10 ** 12)) for _ in range(count)]
        made = tables.Table(OUT, name, tables.COLUMNS)
        made.version(1, [(1, None, 1, [made.manifest("m1.avro", [made.entry(1, made.data_file("a.avro", rows))], 1, 1)])], 1)
    return name


def size(name):
    return os.path.getsize(os.path.join(OUT, name, "data", "a.avro"))


def main():
    os.makedirs(OUT, exist_ok=True)
    subprocess.run(["rustc", "-O", "-o", PLAIN, os.path.join(HERE, "plain.rs")], check=True)
    ours = lambda name: [PROGRAM, "rows", "--table", name]  # noqa: E731
    mode = sys.argv[1] if len(sys.argv) > 1 else "times"
    if mode == "times":
        name = table(1000000)
        took, peak, text = measure.run(ours(name), OUT, 3)
        plain, plain_peak, plain_text = measure.run([PLAIN, name], OUT, 3)
        if text != plain_text:
            sys.exit("the two programs print different rows")
        print("%d cores, a data file of %.1f MB" % (os.cpu_count(), size(name) / 1e6))
        print("this program   %.2f s  %6.1f MB, %.1f times the file" % (took, peak / 1e6, peak / size(name)))
        print("plain program  %.2f s  %6.1f MB" % (plain, plain_peak / 1e6))
        print("ratio of times %.2f" % (took / plain))
    elif mode == "count":
        few, many = [measure.instructions(ours(table(n)), OUT) for n in (250000, 1000000)]
        print("%d and %d instructions, ratio %.2f" % (few, many, many / few))
    else:
        measure.instructions(ours(table(10000)), OUT)
        subprocess.run(["callgrind_annotate", "callgrind.out"], cwd=OUT)


if __name__ == "__main__":
    main()
