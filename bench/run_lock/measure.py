#!/usr/bin/env python3
"""Turns per second and processor time per turn of the named lock, beside two mutexes.

Run it at the top of the repository, once `rt run` in crates/engine_bench has proved and built the
program: bench/run_lock/measure.py [TURNS]. Rust's own mutex is measured where rustc is there.
Each line is the middle one of five runs over TURNS turns in all, 20 million if it isn't said.
"""
import os
import shutil
import subprocess
import sys
import tempfile
import time

PROGRAM = "crates/engine_bench/out/engine_bench"
RUNS = 5


def run(words):
    """The seconds that pass and that processors work, and what is printed."""
    before = os.times()
    start = time.monotonic()
    text = subprocess.run(words, check=True, capture_output=True, text=True).stdout
    passed = time.monotonic() - start
    after = os.times()
    worked = after.children_user + after.children_system - before.children_user - before.children_system
    return passed, worked, text


def measure(program, kind, threads, turns):
    each = turns // threads
    runs = sorted(run([program, kind, str(threads), str(each)]) for _ in range(RUNS))
    passed, worked, text = runs[RUNS // 2]
    assert text.split()[0] == str(each * threads), text
    print(f"| {kind} | {threads} | {each * threads / passed / 1e6:.1f} | {worked / (each * threads) * 1e9:.0f} |", flush=True)


def main():
    turns = int(sys.argv[1]) if len(sys.argv) > 1 else 20_000_000
    print("| lock | threads | million turns a second | processor ns a turn |\n|---|---|---|---|")
    with tempfile.TemporaryDirectory() as folder:
        kinds = [(PROGRAM, "named"), (PROGRAM, "mutex")]
        if shutil.which("rustc"):
            rust = os.path.join(folder, "mutex")
            source = os.path.join(os.path.dirname(__file__), "mutex.rs")
            subprocess.run(["rustc", "-O", "-o", rust, source], check=True)
            kinds.append((rust, "rust"))
        for program, kind in kinds:
            for threads in (1, 2, 4, 8):
                measure(program, kind, threads, turns)


main()
