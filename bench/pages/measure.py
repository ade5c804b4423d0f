#!/usr/bin/env python3
"""Times how long the proved program takes to load 1,000,000 rows from CSV, and to lay them on drives and read them back.

Build the program first (examples/run does). A catalogue whose second table isn't there ends the run once the first one is
loaded, before a drive is mounted. The same catalogue without it goes on, and answers a statement that reads no row. The
difference is the time of the drives. The two runs are made in pairs, one right behind the other, since the speed of a machine
that others share changes; what is printed is the middle one of the pairs.
"""

import os
import shutil
import statistics
import subprocess
import sys
import tempfile
import time

ROWS = 1_000_000
PAIRS = 15
TOP = os.path.dirname(os.path.dirname(os.path.dirname(os.path.abspath(__file__))))
PROGRAM = os.path.join(TOP, "crates", "xprs_cli", "out", "xprs_cli")
RELATION = 'relation EMP from "emp.csv" (name = text, dept = text, sal = int4)\n'


def write_files(folder):
    state = 7
    with open(os.path.join(folder, "emp.csv"), "w") as table:
        table.write("name,dept,sal\n")
        for row in range(ROWS):
            state = (state * 6364136223846793005 + 1442695040888963407) % 2**64
            table.write(f"n{state % 10**11:011d},d{row % 1000:04d},{(state >> 33) % 10000}\n")
    texts = {
        "whole": RELATION,
        "loaded": RELATION + 'relation NONE from "none.csv" (x = int4)\n',
        "q": "retrieve (x = 1) \\g\n",
    }
    for name, text in texts.items():
        with open(os.path.join(folder, name), "w") as file:
            file.write(text)


def timed(catalogue, wanted, folder):
    """Wall time and processor time in seconds of one run, and its peak memory in bytes."""
    begin = time.monotonic()
    child = subprocess.Popen([PROGRAM, "alone", catalogue, "q"], cwd=folder, stdout=subprocess.DEVNULL, stderr=subprocess.DEVNULL)
    _, status, usage = os.wait4(child.pid, 0)
    wall = time.monotonic() - begin
    if os.waitstatus_to_exitcode(status) != wanted:
        sys.exit(f"{catalogue}: status {status}")
    return wall, usage.ru_utime + usage.ru_stime, usage.ru_maxrss * 1024


def print_halves(pairs, place):
    """The middle of each half's times in seconds, and in how many pairs the second half took less."""
    name = ("wall", "processor")[place]
    first = [loaded[place] for loaded, _ in pairs]
    second = [whole[place] - loaded[place] for loaded, whole in pairs]
    less = sum(there < here for here, there in zip(first, second))
    print(f"{name:10} {statistics.median(first):.2f} s   {statistics.median(second):.2f} s   {less} of {len(pairs)}", flush=True)


def main():
    folder = tempfile.mkdtemp(prefix="xprs-bench-")
    try:
        write_files(folder)
        pairs = [(timed("loaded", 2, folder), timed("whole", 0, folder)) for _ in range(PAIRS)]
    finally:
        shutil.rmtree(folder)
    print(f"{ROWS} rows, {PAIRS} pairs of runs")
    print("           loaded   laid and read back, less in")
    print_halves(pairs, 0)
    print_halves(pairs, 1)
    print(f"peak memory {max(whole[2] for _, whole in pairs) / 1e6:.0f} MB")


if __name__ == "__main__":
    main()
