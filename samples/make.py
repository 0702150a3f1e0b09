"""Makes the sample tables of `lazhuvettan`, whose location is where they stand: run it as `python3 samples/make.py`."""

import os

import tables

if __name__ == "__main__":
    here = os.path.dirname(os.path.abspath(__file__))
    program = os.path.join(here, "..", "crates", "lazhuvettan")
    tables.plain(program, "data/plain")
    tables.mixed(program, "data/mixed")
