"""Counts imports of another crate's proof modules beside its CallerLemmas, and prints each. Exits 1 where there is one."""

import pathlib
import re
import sys

CRATES = pathlib.Path(__file__).resolve().parent.parent / "crates"
NAMES = {folder.name for folder in CRATES.iterdir() if folder.is_dir()}
IMPORT = re.compile(r"\bRattle\.(\w+)\.proofs\.(\w+)|\b(\w+)::proofs::(\w+)")


def offenders():
    for kind in ("src/**/*.rt", "specs/**/*.antt", "proofs/**/*.antt"):
        for path in sorted(CRATES.glob("*/" + kind)):
            own = path.relative_to(CRATES).parts[0]
            for number, line in enumerate(path.read_text().splitlines(), 1):
                for match in IMPORT.finditer(line):
                    crate = match.group(1) or match.group(3)
                    module = match.group(2) or match.group(4)
                    if crate in NAMES and crate != own and module != "CallerLemmas":
                        yield f"{path.relative_to(CRATES)}:{number}: {match.group(0)}"


found = list(offenders())
for line in found:
    print(line)
print(f"imports of another crate's proofs beside CallerLemmas: {len(found)}")
sys.exit(1 if found else 0)
