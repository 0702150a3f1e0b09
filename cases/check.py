"""Puts the proved program through the cases: `python3 cases/check.py [PROGRAM]`.

A case is a folder here. It is copied into a temporary folder of its own, in which the program is run. Its files:

    args       the program's words, one a line
    table      the name of a table of samples/tables.py, made in the folder t with the location s3://lake/t; none where there is no such file
    make.py    run then, with `import tables`: it changes what was made, or makes more; none where there is no such file
    report     what the program must print
    status     with which exit status
    rows       what the command rows must print of the table afterwards; not asked where there is no such file
    snapshots  of each snapshot of the current version then: id, parent, sequence number and operation; not asked likewise
    output     the file that takes what the program prints, in the place of the report

All others, as scripts and schema files, are what the words name. Whatever a case is, each file that was there must keep its bytes,
and after status 2, 3 or 6 no file may be new. One line is printed for each case that fails, and last a line that counts them.
"""

import concurrent.futures
import json
import os
import re
import shutil
import subprocess
import sys
import tempfile

HERE = os.path.dirname(os.path.abspath(__file__))
SAMPLES = os.path.join(HERE, "..", "samples")
PROGRAM = os.path.join(HERE, "..", "crates", "lazhuvettan", "out", "lazhuvettan")
EXPECTED = ("args", "table", "make.py", "report", "status", "rows", "snapshots", "output")
SECONDS = 120

sys.dont_write_bytecode = True
sys.path.insert(0, SAMPLES)
import tables  # noqa: E402


def files_below(folder):
    """The bytes of each file below a folder, by its path there."""
    found = {}
    for at, _, names in os.walk(folder):
        for name in names:
            path = os.path.join(at, name)
            found[os.path.relpath(path, folder)] = tables.read(path)
    return found


def made(case, folder):
    """Makes the case's folder, and gives the files that are the check's own."""
    shutil.copytree(case, folder)
    at = os.path.join(folder, "table")
    if os.path.isfile(at):
        name = tables.read(at).decode().strip()
        getattr(tables, name)(folder, "t", "s3://lake/t")
    if os.path.isfile(os.path.join(folder, "make.py")):
        how = dict(os.environ, PYTHONPATH=SAMPLES)
        subprocess.run([sys.executable, "-B", "make.py"], cwd=folder, env=how, check=True, timeout=SECONDS)
    own = {}
    for name in EXPECTED:
        path = os.path.join(folder, name)
        if os.path.isfile(path):
            own[name] = tables.read(path)
            os.remove(path)
    return own


def run(program, words, folder, output=None):
    """What a run prints, its status and what it says on the standard error."""
    with open(output, "wb") if output else tempfile.TemporaryFile() as out:
        ran = subprocess.run([program, *words], cwd=folder, stdin=subprocess.DEVNULL, stdout=out, stderr=subprocess.PIPE,
                             timeout=SECONDS)
        if output:
            return b"", ran.returncode, ran.stderr
        out.seek(0)
        return out.read(), ran.returncode, ran.stderr


def first_difference(found, wanted):
    at = next((i for i, (a, b) in enumerate(zip(found, wanted)) if a != b), min(len(found), len(wanted)))
    line = wanted[:at].count(b"\n")
    one = lambda text: (text.split(b"\n") + [b""] * (line + 1))[line][:120].decode(errors="replace")  # noqa: E731
    return "line %d is %r and not %r" % (line + 1, one(found), one(wanted))


def snapshots_of(folder, table):
    """A line for each snapshot of the table's current version."""
    metadata = os.path.join(folder, table, "metadata")
    versions = [int(found[1]) for found in (re.fullmatch(r"v(0|[1-9][0-9]*)\.metadata\.json", it) for it in os.listdir(metadata)) if found]
    held = json.loads(tables.read(os.path.join(metadata, "v%d.metadata.json" % max(versions))))
    line = lambda it: "%s %s %s %s\n" % (it["snapshot-id"], it.get("parent-snapshot-id", "none"), it["sequence-number"],  # noqa: E731
                                         it["summary"]["operation"])
    return "".join(map(line, held.get("snapshots", []))).encode()


def table_of(words):
    return next((words[at + 1] for at, word in enumerate(words[:-1]) if word == b"--table"), b"t").decode()


def faults(program, case, folder):
    """Says what is wrong with a case."""
    own = made(case, folder)
    words, before = own["args"].splitlines(), files_below(folder)
    output = own.get("output", b"").decode().strip()
    report, status, said = run(program, words, folder, output)
    after = files_below(folder)
    if status != int(own["status"]):
        yield "the status is %d and not %d" % (status, int(own["status"]))
    if report != own["report"]:
        yield "the report: " + first_difference(report, own["report"])
    if said:
        yield "it said %r" % said[:200]
    changed = sorted(name for name, held in before.items() if after.get(name) != held)
    if changed:
        yield "%s has other bytes" % changed[0]
    if status in (2, 3, 6) and after.keys() != before.keys():
        yield "there are new files"
    if "rows" in own:
        rows, status, _ = run(program, ["rows", "--table", table_of(words)], folder)
        if status:
            yield "the rows have status %d" % status
        if rows != own["rows"]:
            yield "the rows: " + first_difference(rows, own["rows"])
    if "snapshots" in own:
        found = snapshots_of(folder, table_of(words))
        if found != own["snapshots"]:
            yield "the snapshots: " + first_difference(found, own["snapshots"])


def checked(program, name):
    """Says what is wrong with a case, in one line, or nothing."""
    with tempfile.TemporaryDirectory(prefix="case-") as room:
        try:
            return "; ".join(faults(program, os.path.join(HERE, name), os.path.join(room, name)))
        except Exception as fault:  # a case that can't be run is one that fails
            return "%s: %s" % (type(fault).__name__, fault)


def main(words):
    program = os.path.abspath(words[0] if words else PROGRAM)
    if not os.access(program, os.X_OK):
        print("cases/check.py: there is no program %s, so no case was run" % os.path.relpath(program))
        return 0
    names = sorted(it for it in os.listdir(HERE) if os.path.isfile(os.path.join(HERE, it, "args")))
    with concurrent.futures.ThreadPoolExecutor(os.cpu_count()) as pool:
        results = list(pool.map(lambda name: checked(program, name), names))
    for name, wrong in zip(names, results):
        if wrong:
            print("cases/%s: %s" % (name, wrong))
    failed = sum(map(bool, results))
    print("%d passed, %d failed" % (len(names) - failed, failed))
    return 1 if failed else 0


if __name__ == "__main__":
    sys.exit(main(sys.argv[1:]))
