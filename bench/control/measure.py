#!/usr/bin/env python3
"""Times the calls of a control over a million positions, and tells how much memory a run takes.

Build the program first: `rt run` in crates/engine_bench proves it and leaves it in out/. Each time is the least average of
five runs; each contains one reading of the clock. The memory is the greatest of a run, less that of a run over nine
positions.
"""

import os
import re
import resource
import subprocess

TOP = os.path.dirname(os.path.dirname(os.path.dirname(os.path.abspath(__file__))))
PROGRAM = os.path.join(TOP, "crates", "engine_bench", "out", "engine_bench")
RUNS = 5


def run(*words):
    return subprocess.run([PROGRAM, *words], check=True, capture_output=True, text=True).stdout


def most_memory():
    """The most kilobytes that a program which ended has had."""
    return resource.getrusage(resource.RUSAGE_CHILDREN).ru_maxrss


def times_of(text):
    return {name: int(number) for name, number in re.findall(r"(\w+) (\d+)(?:,|$)", text.splitlines()[1])}


def main():
    run("history")
    small = most_memory()
    texts = [run("control", "times") for _ in range(RUNS)]
    first = {text.splitlines()[0] for text in texts}
    assert len(first) == 1, first
    print(first.pop())
    times = [times_of(text) for text in texts]
    for name in times[0]:
        print(f"{name:10} {min(one[name] for one in times)} ns")
    print(f"memory     {(most_memory() - small) / 1024:.1f} MB")


if __name__ == "__main__":
    main()
