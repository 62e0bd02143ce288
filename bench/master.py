#!/usr/bin/env python3
"""Times the master of the root of days, by whole runs of the program.

Words: a folder with a file DAY.rules and a file DAY.demand for each day, and then the days' names; no name
stands for all of them. The program is crates/bench_runs, as `rt run` builds it there. From the least processor
time of runs that solve the master once the least time of runs that stop before is taken off. Each line has
what the program prints, the time, and the rest of the run: reading both texts, building the graph, and one
fill of the table. A run that takes longer than two minutes is given up.
"""
import os
import pathlib
import signal
import subprocess
import sys

TOP = pathlib.Path(__file__).resolve().parent.parent
PROGRAM = TOP / "crates" / "bench_runs" / "out" / "bench_runs"
TURNS = 5
PATIENCE = 120


def seconds(words, given):
    """The processor time of a run and what it printed; no time where the run was given up."""
    with open(given) as text, subprocess.Popen(words, stdin=text, stdout=subprocess.PIPE) as run:
        signal.signal(signal.SIGALRM, lambda *_: run.kill())
        signal.alarm(PATIENCE)
        answer = run.stdout.read().decode().strip()
        _, status, used = os.wait4(run.pid, 0)
        signal.alarm(0)
        run.returncode = status
    return (used.ru_utime + used.ru_stime if status == 0 else None), answer


def least(folder, day, times):
    """The least time of solving so often, and what was printed; no time where a run was given up."""
    words = [PROGRAM, "master", str(times), "0", "0", folder / f"{day}.demand"]
    best, said = seconds(words, folder / f"{day}.rules")
    for _ in range(TURNS - 1):
        if best is None:
            return None, said
        took, again = seconds(words, folder / f"{day}.rules")
        if again != said:
            sys.exit(f"{day}: two runs differ: {said!r} and {again!r}")
        best = min(best, took)
    return best, said


def main():
    if not PROGRAM.exists():
        sys.exit("run `rt run` in crates/bench_runs: it builds the program")
    if len(sys.argv) < 2:
        sys.exit("usage: master.py FOLDER [DAY..]")
    folder = pathlib.Path(sys.argv[1])
    days = sys.argv[2:] or sorted(path.stem for path in folder.glob("*.rules"))
    for day in days:
        rest, ready = least(folder, day, 0)
        if ready != "ready":
            print(f"{day}: {ready}")
            continue
        took, said = least(folder, day, 1)
        if took is None:
            print(f"{day}: not solved within {PATIENCE} s")
        else:
            print(f"{day}: {said}: {1e3 * (took - rest):.1f} ms, the rest {1e3 * rest:.1f} ms")


if __name__ == "__main__":
    main()
