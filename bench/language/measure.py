#!/usr/bin/env python3
"""Times `check` of the proved program over two scripts: 64 MiB of blanks before one short statement,
and one long statement of 989 tokens, whose texts have 2,000 bytes each.

Build the program first (examples/run does). `measure.py FOLDER` writes the files there and runs nothing.
"""

import os
import shutil
import subprocess
import sys
import tempfile
import time

LIMIT = 64 * 1024 * 1024
COMPARISONS = 246
TOP = os.path.dirname(os.path.dirname(os.path.dirname(os.path.abspath(__file__))))
PROGRAM = os.path.join(TOP, "crates", "xprs_cli", "out", "xprs_cli")

CATALOGUE = 'relation EMP from "emp.csv" (name = text, dept = text, sal = int4)\n'
SHORT = "retrieve (EMP.name) where EMP.sal >= 9000 \\g\n"


def long_statement():
    """Comparisons of two texts, joined by `and`: 4 tokens each but for the last, and 6 around them."""
    comparison = f'"{"a" * 2000}" = "{"b" * 2000}"'
    return f"retrieve (n = {' and '.join([comparison] * COMPARISONS)}) \\g\n"


def scripts():
    """The name, the text and the printed form of each script."""
    yield "blanks", " " * (LIMIT - len(SHORT)) + SHORT, SHORT
    yield "long", long_statement(), long_statement()


def write_files(folder):
    with open(os.path.join(folder, "cat"), "w") as catalogue:
        catalogue.write(CATALOGUE)
    for name, text, _ in scripts():
        with open(os.path.join(folder, name), "w") as script:
            script.write(text)


def measure(folder, name, printed):
    """The best of five runs."""
    best = None
    for _ in range(5):
        begin = time.monotonic()
        run = subprocess.run([PROGRAM, "check", "cat", name], cwd=folder, capture_output=True, text=True)
        wall = time.monotonic() - begin
        if run.returncode != 0 or run.stdout != printed:
            sys.exit(f"{name}: status {run.returncode}, or another text: {run.stderr.strip()}")
        best = wall if best is None else min(best, wall)
    size = os.path.getsize(os.path.join(folder, name))
    print(f"{name}: {size} bytes, {best:.3f} s, {size / best:.0f} bytes per second", flush=True)


def main():
    if len(sys.argv) > 1:
        write_files(sys.argv[1])
        return
    if not os.path.exists(PROGRAM):
        sys.exit("the program isn't built")
    folder = tempfile.mkdtemp(prefix="xprs-bench-")
    try:
        write_files(folder)
        for name, _, printed in scripts():
            measure(folder, name, printed)
    finally:
        shutil.rmtree(folder)


main()
