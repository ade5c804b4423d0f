#!/usr/bin/env python3
"""Times `explain` of the proved program over statements with six range variables, whose every two are joined.

Build the program first (examples/run does). The time is that of the whole run: it reads the catalogue, the script and a
table, mounts and writes the drives, plans the statement and prints the plan. `check` of the same script, which plans
nothing and mounts nothing, is timed beside it.
"""

import itertools
import os
import shutil
import subprocess
import sys
import tempfile
import time

TOP = os.path.dirname(os.path.dirname(os.path.dirname(os.path.abspath(__file__))))
PROGRAM = os.path.join(TOP, "crates", "xprs_cli", "out", "xprs_cli")
COLUMNS = "abcd"
RELATION = f'relation R from "r.csv" ({", ".join(f"{column} = int4" for column in COLUMNS)})\n'
VARIABLES = range(6)


def statement(each):
    """A statement that compares so many columns of every two of its variables."""
    ranges = ", ".join(f"v{number} in R" for number in VARIABLES)
    pairs = itertools.combinations(VARIABLES, 2)
    tests = [f"v{a}.{COLUMNS[k]} = v{b}.{COLUMNS[-k]}" for a, b in pairs for k in range(each)]
    return f"retrieve (v0.a) from {ranges} where {' and '.join(tests)} \\g\n"


def best_of(folder, *words):
    """The least wall time of ten runs in seconds."""
    best = None
    for _ in range(10):
        begin = time.monotonic()
        run = subprocess.run([PROGRAM, *words], cwd=folder, capture_output=True, text=True)
        wall = time.monotonic() - begin
        if run.returncode != 0:
            sys.exit(f"{words}: status {run.returncode}: {run.stderr.strip()}")
        best = wall if best is None else min(best, wall)
    return best


def main():
    folder = tempfile.mkdtemp(prefix="xprs-bench-")
    try:
        files = {"cat": RELATION, "r.csv": "a,b,c,d\n" + "1,2,3,4\n" * 100, "q1": statement(1), "q4": statement(4)}
        for name, text in files.items():
            with open(os.path.join(folder, name), "w") as file:
                file.write(text)
        for script, conjuncts in (("q1", 15), ("q4", 60)):
            checked = best_of(folder, "check", "cat", script)
            for method in ("hash", "merge"):
                planned = best_of(folder, "explain", "cat", script, "--join", method)
                print(f"{conjuncts} conjuncts, {method}: {planned * 1e3:.1f} ms; checked alone: {checked * 1e3:.1f} ms", flush=True)
    finally:
        shutil.rmtree(folder)


main()
