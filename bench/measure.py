"""How long a program runs, the most memory that it takes, and the instructions that it needs."""

import os
import subprocess
import sys
import time


def run(words, folder, best_of, into=None):
    """The least time in seconds, the peak memory in bytes and the output of a program that runs in a folder.

    The output goes into a file of the folder, where its name is given, and else through a pipe.
    """
    least, peak, output = None, 0, b""
    for _ in range(best_of):
        took, memory, output = once(words, folder, into)
        least = took if least is None else min(least, took)
        peak = max(peak, memory)
    if into is not None:
        with open(os.path.join(folder, into), "rb") as written:
            output = written.read()
    return least, peak, output


def once(words, folder, into):
    target = subprocess.PIPE if into is None else open(os.path.join(folder, into), "wb")
    start = time.monotonic()
    child = subprocess.Popen(words, cwd=folder, stdout=target)
    output = child.stdout.read() if into is None else b""
    _, status, usage = os.wait4(child.pid, 0)
    took = time.monotonic() - start
    if into is not None:
        target.close()
    if status != 0:
        sys.exit("%s ended with %d" % (words, status))
    return took, usage.ru_maxrss * 1024, output


def instructions(words, folder):
    """How many instructions a program needs that runs in a folder, where it leaves `callgrind.out`."""
    found = subprocess.run(["valgrind", "--tool=callgrind", "--callgrind-out-file=callgrind.out"] + words, cwd=folder,
                           stdout=subprocess.DEVNULL, stderr=subprocess.PIPE, text=True)
    line = [text for text in found.stderr.splitlines() if "Collected" in text][0]
    return int(line.split(":")[1])
