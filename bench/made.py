#!/usr/bin/env python3
"""Solves the days that are made from the numbers 0 to 30, and says how many are closed and how long they took.

    bench/made.py [TURNS [PROGRAM]]

PROGRAM is by default the one that `./roster` would run. Times are processor
time of a whole call: making the day, its graph, the search, and the two texts.
"""
import os
import resource
import subprocess
import sys
import tempfile

sys.dont_write_bytecode = True
from built import program_path

DAYS = range(31)


def call(program, number, turns, proof):
    before = resource.getrusage(resource.RUSAGE_CHILDREN).ru_utime
    run = subprocess.run([program, "make", str(number), proof, str(turns)], capture_output=True, text=True)
    used = resource.getrusage(resource.RUSAGE_CHILDREN).ru_utime - before
    if run.returncode not in (0, 8):
        sys.exit(f"make {number}: status {run.returncode}: {run.stdout}{run.stderr}")
    return run.returncode, dict(line.split(" ", 1) for line in run.stdout.splitlines()), 1000 * used


def main():
    turns = int(sys.argv[1]) if len(sys.argv) > 1 else 200
    program = program_path(given=sys.argv[2] if len(sys.argv) > 2 else None)
    with tempfile.TemporaryDirectory() as folder:
        calls = [call(program, number, turns, os.path.join(folder, "proof")) for number in DAYS]
    closed = sum(status == 0 for status, _, _ in calls)
    times = [time for _, _, time in calls]
    most = max(int(said["processed"]) for _, said, _ in calls)
    failed = sum(int(said["failed"]) for _, said, _ in calls)
    print(f"{closed} of {len(calls)} days closed within {turns} turns, at most {most} nodes, {failed} without prices")
    print(f"milliseconds: least {min(times):.0f}, mean {sum(times) / len(times):.0f}, most {max(times):.0f}")


if __name__ == "__main__":
    main()
