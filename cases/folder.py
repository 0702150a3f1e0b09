"""Puts the proved program over real folders: `python3 cases/folder.py [PROGRAM]`.

It looks at what no clause says: syncs that fail and kills at each call of the system, processes that run at once on one table, and names
under which something else stands than a regular file. One line is printed for each check that fails, one for what is passed over or cut
short, and last a line that counts the checks.
"""

import collections
import concurrent.futures
import functools
import json
import os
import re
import shutil
import signal
import stat
import subprocess
import sys
import tempfile
import time

sys.dont_write_bytecode = True
from check import PROGRAM, tables  # noqa: E402

ROUNDS, ROUNDS_OF_ONE_NAME, ROUNDS_OF_A_TABLE = 200, 50, 10
# How long each kind of checks goes on, in seconds. What has begun by then is brought to its end.
SYNC_SECONDS, KILL_SECONDS, ROUND_SECONDS, ONE_NAME_SECONDS = 20, 20, 35, 12
# After how many seconds a run counts as one that hangs: one that answers at once, and one that others hold up.
ANSWER_SECONDS, RUN_SECONDS = 5, 30
# How long a run stands at the sync that fails, and another at its open of a version, in microseconds.
SYNC_HELD, OPEN_HELD = 400_000, 600_000
CALLS = ("write", "fsync", "fdatasync", "link", "linkat", "unlink", "unlinkat")

LOCATION = "s3://lake/t"
BEFORE = [b"1,x", b"2,\\N"]
SCHEMA = {"schema": {"type": "struct", "schema-id": 0, "fields": [{"id": 1, "name": "id", "required": True, "type": "long"}]}}
ROWS_ASKED = ["rows", "--table", "t"]
CREATE_ASKED = ["create", "--table", "new", "--schema", "schema.json"]
ROWS_TOLD = b"row 1,x\nrow 2,\\N\n"
INSERTED = ["run", "--table", "t", "--script", "script.sql"]


def committed_told(version):
    """What a run of the one INSERT prints."""
    lines = "event s.1 plan v%d\nevent s.1 validate v%d good\nevent s.1 swap v%d won\nanswer s.1 committed v%d\nbranch main 3\n"
    return (lines % (version, version, version + 1, version + 1)).encode()


# ---- runs

def start(words, folder):
    """Starts a program in a folder, in a group of processes of its own."""
    return subprocess.Popen(words, cwd=folder, stdin=subprocess.DEVNULL, stdout=subprocess.PIPE, stderr=subprocess.DEVNULL,
                            start_new_session=True)


def ended(process, seconds=RUN_SECONDS):
    """What a program printed, and its status: None where it hangs."""
    try:
        return process.communicate(timeout=seconds)[0], process.returncode
    except subprocess.TimeoutExpired:
        os.killpg(process.pid, signal.SIGKILL)
        return process.communicate()[0], None


def rows_of(program, folder):
    """The rows that the program prints of the table."""
    report, status = ended(start([program, *ROWS_ASKED], folder))
    if status != 0:
        raise ValueError("the rows have status %s: %r" % (status, report[-200:]))
    return [line[4:] for line in report.split(b"\n")[:-1]]


def script(folder, name, session, *statements):
    """Writes a script of a session, and gives the words that run it."""
    tables.write(os.path.join(folder, name), "".join("%s;\n" % it for it in ("SESSION " + session, *statements)).encode())
    return ["run", "--table", "t", "--script", name]


def insert(number):
    return "INSERT INTO t VALUES (%d, 'y')" % number


def row(number):
    return b"%d,y" % number


TWO_INSERTS = [insert(10), insert(11)]
INSERT_AND_DELETE = [insert(10), "DELETE FROM t WHERE id = 1"]


def committed(report):
    """The version of each statement that a report tells as committed."""
    return {int(it): int(version) for it, version in re.findall(rb"^answer \w+\.(\d+) committed v(\d+)$", report, re.M)}


def bag_faults(found, wanted):
    """Says how the rows differ from those that are wanted."""
    found, wanted = collections.Counter(found), collections.Counter(wanted)
    if found != wanted:
        yield "the rows lack %s and have %s too many" % (sorted((wanted - found).elements()), sorted((found - wanted).elements()))


def told_faults(tally, folder, before, reports):
    """Says whether other rows are there than runs told as committed. Reports are pairs of one and the numbers of its rows."""
    versions = [version for report, _ in reports for version in committed(report).values()]
    if len(set(versions)) < len(versions):
        yield "a version is told twice: %s" % versions
    told = [row(numbers[statement - 1]) for report, numbers in reports for statement in committed(report)]
    yield from bag_faults(rows_of(tally.program, folder), before + told)


# ---- kinds of checks

class Tally:
    """Counts the checks that passed and failed."""

    def __init__(self, room, program):
        self.room, self.program, self.passed, self.failed = room, program, 0, 0

    def folder(self, make=tables.plain):
        """A new folder with a table t, the script of one INSERT and a schema file."""
        folder = tempfile.mkdtemp(dir=self.room)
        make(folder, "t", LOCATION)
        script(folder, "script.sql", "s", insert(3))
        tables.write(os.path.join(folder, "schema.json"), json.dumps(SCHEMA).encode())
        return folder

    def checks(self, kind, named, seconds=None, lanes=os.cpu_count()):
        """Makes checks until the time is up. Each is a name and a function that says what is wrong."""
        until = time.monotonic() + seconds if seconds else None

        def wrong(call):
            if until and time.monotonic() > until:
                return None
            try:
                return "; ".join(call())
            except Exception as fault:  # a check that can't be made is one that fails
                return "%s: %s" % (type(fault).__name__, fault)

        with concurrent.futures.ThreadPoolExecutor(lanes) as pool:
            results = list(pool.map(wrong, [call for _, call in named]))
        for (name, _), result in zip(named, results):
            if result:
                print("%s, %s: %s" % (kind, name, result))
        made = [result for result in results if result is not None]
        self.failed += sum(map(bool, made))
        self.passed += len(made) - sum(map(bool, made))
        if len(made) < len(named):
            print("folder: %s: %d of %d were made, then the time was up" % (kind, len(made), len(named)))


# ---- something else than a regular file

THINGS = {
    "a pipe": lambda path, aside: os.mkfifo(path),
    "a link to zeros without end": lambda path, aside: os.symlink("/dev/zero", path),
    "a device": lambda path, aside: os.mknod(path, stat.S_IFCHR | 0o600, os.makedev(1, 5)),
    "a folder": lambda path, aside: os.mkdir(path),
    "a link to a folder": lambda path, aside: os.symlink(os.path.dirname(aside), path),
    "a link to nothing": lambda path, aside: os.symlink("nothing", path),
    "a link to itself": lambda path, aside: os.symlink(os.path.basename(path), path),
    "a link to a file": lambda path, aside: os.symlink(aside, path),
}

# Where it stands, the words, what they print there and their status, and what they print with status 0 where it is a link to a file.
STOPPED = b"event s.1 plan v1\nevent s.1 validate v1 good\nfault store\n"
MISSING = b"fault table later s3://lake/t/"
PLACES = [
    ("metadata/v1.metadata.json", ROWS_ASKED, b"fault table no-version t\n", 4, ROWS_TOLD),
    ("metadata/v1.metadata.json", INSERTED, b"fault table no-version t\n", 4, committed_told(1)),
    ("metadata/v2.metadata.json", ROWS_ASKED, ROWS_TOLD, 0, ROWS_TOLD),
    ("metadata/v2.metadata.json", INSERTED, STOPPED, 5, committed_told(2)),
    ("metadata/.v2.metadata.json.0", INSERTED, committed_told(1), 0, committed_told(1)),
    ("metadata/snap-1.avro", ROWS_ASKED, MISSING + b"metadata/snap-1.avro\n", 4, ROWS_TOLD),
    ("metadata/m1.avro", ROWS_ASKED, MISSING + b"metadata/m1.avro\n", 4, ROWS_TOLD),
    ("data/a.avro", ROWS_ASKED, MISSING + b"data/a.avro\n", 4, ROWS_TOLD),
    ("data/a.avro", INSERTED, MISSING + b"data/a.avro\n", 4, committed_told(1)),
    ("data/r1-s-1.avro", INSERTED, b"fault store\n", 5, committed_told(1)),
    ("../script.sql", INSERTED, b"fault input script.sql\n", 6, committed_told(1)),
    ("../schema.json", CREATE_ASKED, b"fault input schema.json\n", 6, b"created v1\n"),
]


def answer_faults(tally, folder, words, report, status, rows=None):
    """Says whether a run gives another answer, or hangs, and whether the rows are others after it."""
    found = ended(start([tally.program, *words], folder), ANSWER_SECONDS)
    if found != (report, status):
        yield "%r with status %s, and not %r with status %d" % (found[0][:300], found[1], report, status)
    if rows is not None:
        yield from bag_faults(rows_of(tally.program, folder), rows)


def thing_faults(tally, thing, place, words, report, status, report_of_link):
    """Something stands in the place of a file."""
    folder = tally.folder()
    path, aside = os.path.join(folder, "t", place), os.path.join(folder, "aside", "file")
    os.mkdir(os.path.dirname(aside))
    if os.path.exists(path):
        os.rename(path, aside)
    else:
        shutil.copyfile(os.path.join(folder, "t", "metadata", "v1.metadata.json"), aside)
    THINGS[thing](path, aside)
    if thing == "a link to a file":
        report, status = report_of_link, 0
    rows = BEFORE + [row(3)] * (b"committed" in report) if status in (0, 5) else None
    yield from answer_faults(tally, folder, words, report, status, rows)


def things(tally):
    """A check of each thing at each place."""
    chosen = list(THINGS)
    try:
        THINGS["a device"](os.path.join(tally.room, "device"), None)
    except OSError:
        print("folder: mknod makes no device here, so devices are passed over")
        chosen.remove("a device")
    return [("%s as %s, %s" % (thing, how[0], how[1][0]), functools.partial(thing_faults, tally, thing, *how))
            for thing in chosen for how in PLACES]


# ---- names that can't be

def path_with_a_nul(root, name, location):
    tables.plain(root, name, location, row_by=lambda held: held.update(manifest_path=LOCATION + "/metadata/m\0.avro"))


def stray_names(root, name, location):
    tables.plain(root, name, location)
    for stray in (b"\xff", b"v9.metadata.json\xff", b"v\xff9.metadata.json", b"r1-\xff-1.avro"):
        tables.write(os.path.join(os.fsencode(root), os.fsencode(name), b"metadata", stray), b"")


def name_faults(tally, make, words, report, status, rows=None):
    """The table is none, or names something that can't be."""
    yield from answer_faults(tally, tally.folder(make), words, report, status, rows)


def names(tally):
    """A check of each name."""
    file_for_a_table = lambda root, name, _: tables.write(os.path.join(root, name), b"")  # noqa: E731
    long_part, no_version = "a" * 256, b"fault table no-version "
    no_words = [[b"\xff"], [b"rows", b"--table", b"\xff"], [b"rows", b"--table", b"t\xff"], [b"run", b"--table", b"t", b"--script", b"\xff"],
                [b"create", b"--table", b"new", b"--schema", b"schema.json\xff"], [b"rows", b"--table=\xc3"], [b"rows\xff", b"--table", b"t"]]
    wanted = [
        ("a table that is a file, rows", file_for_a_table, ROWS_ASKED, no_version + b"t\n", 4),
        ("a table that is a file, run", file_for_a_table, INSERTED, no_version + b"t\n", 4),
        ("a table below a file", file_for_a_table, ["rows", "--table", "t/below"], no_version + b"t/below\n", 4),
        ("a part of 256 bytes", tables.plain, ["rows", "--table", long_part], no_version + long_part.encode() + b"\n", 4),
        ("a NUL in a path", path_with_a_nul, ROWS_ASKED, MISSING + b"metadata/m\0.avro\n", 4),
        ("names that are no UTF-8, rows", stray_names, ROWS_ASKED, ROWS_TOLD, 0),
        ("names that are no UTF-8, run", stray_names, INSERTED, committed_told(1), 0, BEFORE + [row(3)]),
    ] + [("words %r" % words, tables.plain, words, b"fault usage\n", 2) for words in no_words]
    return [(name, functools.partial(name_faults, tally, *how)) for name, *how in wanted]


# ---- syncs that fail, and kills

def traced(log, calls, inject=None, *more):
    """The words before a program that log its calls and put something into one."""
    return ["strace", "-f", "-o", log, "-e", "trace=" + calls, *(["-e", "inject=" + inject] if inject else []), *more]


def can_trace(tally):
    """Whether a call of a program can be made to fail here."""
    if not shutil.which("strace"):
        return False
    text = "import os, sys\ntry:\n    os.write(1, b'x')\nexcept OSError:\n    sys.exit(77)"
    return ended(start([*traced("/dev/null", "write", "write:error=EIO:when=1"), sys.executable, "-c", text], tally.room))[1] == 77


def calls_of(tally, statements):
    """How often a run of the statements on the plain table makes each call."""
    folder = tally.folder()
    ended(start([*traced("log", ",".join(CALLS)), tally.program, *script(folder, "some.sql", "s", *statements)], folder))
    return collections.Counter(re.findall(r"^\d+ +(\w+)\(", tables.read(os.path.join(folder, "log")).decode(), re.M))


def wait_for(process, log, count):
    """Waits until a traced program has begun so many calls, or has ended."""
    while process.poll() is None and not (os.path.exists(log) and tables.read(log).count(b"(") >= count):
        time.sleep(0.005)


def sync_faults(tally, place):
    """A sync of a run fails, while a second run is held at its open of the version and a third runs."""
    folder = tally.folder()
    first_log, second_log = os.path.join(folder, "first"), os.path.join(folder, "second")
    fails = traced(first_log, "fsync", "fsync:error=EIO:delay_enter=%d:when=%d" % (SYNC_HELD, place))
    first = start([*fails, tally.program, *script(folder, "first.sql", "first", *TWO_INSERTS)], folder)
    wait_for(first, first_log, place)
    versions = [word for number in range(1, 6) for word in ("-P", "t/metadata/v%d.metadata.json" % number)]
    held = traced(second_log, "openat", "openat:delay_enter=%d:when=1" % OPEN_HELD, *versions)
    second = start([*held, tally.program, *script(folder, "second.sql", "second", insert(20))], folder)
    wait_for(second, second_log, 1)
    third = start([tally.program, *script(folder, "third.sql", "third", insert(30))], folder)
    reports = []
    for name, run, numbers in (("first", first, [10, 11]), ("second", second, [20]), ("third", third, [30])):
        report, status = ended(run)
        reports.append((report, numbers))
        is_done = len(committed(report)) == len(numbers)
        if status != (0 if is_done else 5) or not is_done and name != "first":
            yield "the %s run has status %s and prints %r" % (name, status, report)
    if not all(re.search(rb"\((INJECTED|DELAYED)\)", tables.read(log)) for log in (first_log, second_log)):
        yield "no sync failed, or no open was held"
    yield from told_faults(tally, folder, BEFORE, reports)


def kill_faults(tally, call, place):
    """A run is killed where it makes a call."""
    folder = tally.folder()
    dies = traced("log", call, "%s:signal=KILL:when=%d" % (call, place))
    report, status = ended(start([*dies, tally.program, *script(folder, "some.sql", "s", *INSERT_AND_DELETE)], folder))
    if status != -9:
        yield "the run was not killed: status %s" % status
    for name in os.listdir(os.path.join(folder, "t", "metadata")):
        if re.fullmatch(r"v\d+\.metadata\.json", name):
            json.loads(tables.read(os.path.join(folder, "t", "metadata", name)))
    states = [sorted(it) for it in (BEFORE, BEFORE + [row(10)], BEFORE[1:] + [row(10)])][len(committed(report)):]
    found = sorted(rows_of(tally.program, folder))
    if found not in states:
        yield "the rows are %s, of %s" % (found, states)
    report, status = ended(start([tally.program, *script(folder, "next.sql", "s", insert(40))], folder))
    if status != 0 or list(committed(report)) != [1]:
        yield "the next run has status %s and prints %r" % (status, report)
    yield from bag_faults(rows_of(tally.program, folder), found + [row(40)])


def traces(tally):
    """Checks each sync that fails, and each call at which a run is killed."""
    syncs, calls = range(1, calls_of(tally, TWO_INSERTS)["fsync"] + 1), calls_of(tally, INSERT_AND_DELETE)
    kills = [(call, place) for call in calls for place in range(1, calls[call] + 1)]
    tally.checks("traces", [("calls", lambda: [] if syncs and calls["write"] else ["a run has no write and sync: %s" % dict(calls)])])
    tally.checks("failed syncs", [("sync %d" % it, functools.partial(sync_faults, tally, it)) for it in syncs], SYNC_SECONDS)
    tally.checks("kills", [("%s %d" % it, functools.partial(kill_faults, tally, *it)) for it in kills], KILL_SECONDS)


# ---- processes at once

class Race:
    """Runs three processes at once on a table, round after round, and a reader beside them."""

    def __init__(self, tally, kind, sessions, count, seconds):
        self.tally, self.sessions, self.made, self.lost, self.stopped = tally, sessions, 0, 0, 0
        tally.checks(kind, [("round %d" % (it + 1), self.faults) for it in range(count)], seconds, lanes=1)
        print("folder: %s: %d swaps were lost, %d runs ended for a name that was taken" % (kind, self.lost, self.stopped))

    def faults(self):
        """A round. Where the sessions have one name a run may end for it, with status 5."""
        if self.made % ROUNDS_OF_A_TABLE == 0:
            self.folder, self.rows = self.tally.folder(tables.empty), []
        self.made += 1
        numbers = [3 * self.made + place for place in range(3)]
        words = [script(self.folder, "%d.sql" % at, session, insert(numbers[at])) for at, session in enumerate(self.sessions)]
        runs = [start([self.tally.program, *it], self.folder) for it in words]
        read, status = ended(start([self.tally.program, *ROWS_ASKED], self.folder))
        found, least = collections.Counter(line[4:] for line in read.splitlines()), collections.Counter(self.rows)
        if status != 0 or least - found or found - least - collections.Counter(map(row, numbers)):
            yield "a reader has status %s and prints %r" % (status, read[-200:])
        reports = []
        for number, run in zip(numbers, runs):
            report, status = ended(run)
            reports.append((report, [number]))
            self.lost += report.count(b" lost\n")
            self.stopped += status == 5
            if status != (0 if committed(report) else 5 if len(set(self.sessions)) == 1 else None):
                yield "a run has status %s and prints %r" % (status, report)
        yield from told_faults(self.tally, self.folder, self.rows, reports)
        self.rows = rows_of(self.tally.program, self.folder)


def main(words):
    program = os.path.abspath(words[0] if words else PROGRAM)
    if not os.access(program, os.X_OK):
        print("cases/folder.py: there is no program %s, so nothing was checked" % os.path.relpath(program))
        return 0
    with tempfile.TemporaryDirectory(prefix="folder-") as room:
        tally = Tally(room, program)
        tally.checks("things", things(tally))
        tally.checks("names", names(tally))
        if can_trace(tally):
            traces(tally)
        else:
            print("folder: strace is missing or may not trace, so failed syncs and kills are passed over")
        Race(tally, "three sessions at once", ["a", "b", "c"], ROUNDS, ROUND_SECONDS)
        Race(tally, "one session three times at once", ["s", "s", "s"], ROUNDS_OF_ONE_NAME, ONE_NAME_SECONDS)
        print("folder: %d passed, %d failed" % (tally.passed, tally.failed))
    return 1 if tally.failed else 0


if __name__ == "__main__":
    sys.exit(main(sys.argv[1:]))
