#!/usr/bin/env python3
"""Times fetches of cached pages, look-ups of random entries, and the writing of a heap file and of its index.

Build the program first: `rt run` in crates/engine_bench proves it and leaves it in out/. Each time is the least of five runs,
less the least of five runs that do none of the work: no fetch, no look-up, no row. The time that passes stands before the
time that processors work. The making of its rows is in the time of a heap file, and the making of its entries and the test
of their order in that of an index.
"""

import os
import subprocess
import time

TOP = os.path.dirname(os.path.dirname(os.path.dirname(os.path.abspath(__file__))))
PROGRAM = os.path.join(TOP, "crates", "engine_bench", "out", "engine_bench")
RUNS = 5
FETCHES = 4_000_000
LOOK_UPS = 100_000
ROWS = 1_000_000


def worked():
    """The seconds that processors have worked for the programs that ended."""
    now = os.times()
    return now.children_user + now.children_system


def run(words):
    """The seconds that pass and that processors work, and the number that is printed."""
    begin, before = time.monotonic(), worked()
    text = subprocess.run([PROGRAM, *words], check=True, capture_output=True, text=True).stdout
    return time.monotonic() - begin, worked() - before, int(text)


def least(*words):
    """The least times of some runs, which all print one number, and that number."""
    runs = [run([str(word) for word in words]) for _ in range(RUNS)]
    assert len({number for _, _, number in runs}) == 1, words
    return min(passed for passed, _, _ in runs), min(spent for _, spent, _ in runs), runs[0][2]


def times_of(wanted, words, idle):
    """The times of a run beyond those of one that does none of the work. It prints the number that is wanted."""
    full, empty = least(*words), least(*idle)
    assert wanted is None or full[2] == wanted, (words, full[2])
    return full[0] - empty[0], full[1] - empty[1]


def print_fetches():
    for threads in (1, 2, 4):
        count = FETCHES // threads * threads
        passed, spent = times_of(count, ["cached", threads, count // threads], ["cached", threads, 0])
        print(f"cached pages, threads: {threads}    {count / passed / 1e6:.2f} million a second, {spent / count * 1e9:.0f} ns of processor each", flush=True)


def print_look_ups():
    passed, spent = times_of(LOOK_UPS, ["entries", LOOK_UPS, ROWS], ["entries", 0, ROWS])
    print(f"{LOOK_UPS} random entries     {passed:.2f} s, {spent:.2f} s", flush=True)


def print_writes():
    heap = times_of(None, ["heap", ROWS], ["heap", 0])
    both = times_of(None, ["index", ROWS], ["index", 0])
    index = both[0] - heap[0], both[1] - heap[1]
    print(f"heap file of {ROWS}    {heap[0]:.2f} s, {heap[1]:.2f} s")
    print(f"its index                 {index[0]:.2f} s, {index[1]:.2f} s: {index[0] / heap[0]:.2f} and {index[1] / heap[1]:.2f} times as long", flush=True)


def main():
    print(f"processors {os.cpu_count()}, load {os.getloadavg()[0]:.1f}")
    print_fetches()
    print_look_ups()
    print_writes()
    print(f"load at the end {os.getloadavg()[0]:.1f}")


if __name__ == "__main__":
    main()
