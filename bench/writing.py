"""Measures the writing of one container of 1,000,000 rows of a long and a text of 12 bytes, beside a plain Rust program
that writes the same bytes.

    python3 bench/writing.py         times and peak memory

It makes a small repository in the folder of temporary files, of `bench/write_rows` and the crates under it, and builds it
with `rt`, which proves them first: minutes, where nothing is kept. The files of `bench/write_rows` end in `.txt`, since `rt`
allows no code of its own outside of `crates`.
"""

import os
import shutil
import subprocess
import sys
import tempfile

import measure

HERE = os.path.dirname(os.path.abspath(__file__))
TOP = os.path.join(HERE, "..")
OUT = os.path.join(HERE, "out")
REPOSITORY = os.path.join(tempfile.gettempdir(), "bench_writing")
CRATES = ["plain_types", "avro_binary", "avro_container"]
PROGRAM = os.path.join(REPOSITORY, "crates", "write_rows", "out", "write_rows")
PLAIN = os.path.join(OUT, "plain_writing")


def copy(folder, crate):
    """Copies a crate's files, without what was built, to the small repository."""
    for part in ("src", "specs", "proofs", "must-fail"):
        shutil.rmtree(os.path.join(REPOSITORY, "crates", crate, part), ignore_errors=True)
    for at, folders, files in os.walk(folder):
        folders[:] = [name for name in folders if name != "out"]
        target = os.path.join(REPOSITORY, "crates", crate, os.path.relpath(at, folder))
        os.makedirs(target, exist_ok=True)
        for name in files:
            shutil.copy2(os.path.join(at, name), os.path.join(target, name.removesuffix(".txt")))


def build():
    os.makedirs(OUT, exist_ok=True)
    for crate in CRATES:
        copy(os.path.join(TOP, "crates", crate), crate)
    copy(os.path.join(HERE, "write_rows"), "write_rows")
    with open(os.path.join(TOP, "crates.txt")) as text:
        lines = [line for line in text if line.split(":")[0] in CRATES]
    with open(os.path.join(REPOSITORY, "crates.txt"), "w") as text:
        text.writelines(lines + ["write_rows: avro_container avro_binary plain_types sqlite_items\n"])
    shutil.copy2(os.path.join(TOP, "HANDLES"), REPOSITORY)
    made = subprocess.run(["rt", "run"], cwd=os.path.join(REPOSITORY, "crates", "write_rows"), stdout=subprocess.DEVNULL)
    if made.returncode != 0:
        sys.exit("write_rows was not built")
    subprocess.run(["rustc", "-O", "-o", PLAIN, os.path.join(HERE, "plain_writing.rs")], check=True)


def main():
    build()
    took, peak, bytes_written = measure.run([PROGRAM], OUT, 20, "ours.avro")
    plain, plain_peak, plain_bytes = measure.run([PLAIN], OUT, 20, "plain.avro")
    if bytes_written != plain_bytes:
        sys.exit("the two programs write different bytes")
    size = len(bytes_written)
    print("%d cores, a container of %.1f MB" % (os.cpu_count(), size / 1e6))
    print("this program   %.2f s  %6.1f MB, %.1f times the container" % (took, peak / 1e6, peak / size))
    print("plain program  %.2f s  %6.1f MB, %.1f times" % (plain, plain_peak / 1e6, plain_peak / size))
    print("ratio of times %.2f" % (took / plain))


if __name__ == "__main__":
    main()
