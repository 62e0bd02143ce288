#!/usr/bin/env python3
"""Compares the proved row step with the same code in plain Rust, as a ratio of times.

Runs crates/bench_runs, as `rt run` built it, and bench/row_step.rs, built by `rustc -O`, in turn
at the same widths and factors, and prints the ratio of the least processor times of each. Both print one checksum, which
must agree.
"""
import os
import pathlib
import subprocess
import sys
import tempfile

TOP = pathlib.Path(__file__).resolve().parent.parent
CRATE = TOP / "crates" / "bench_runs"
# the factor of all entries: small numbers, small numbers with a common factor, numbers beyond a word
FACTORS = {"small": 1, "factor 6": 6, "wide": 2**61 - 1}
WIDTHS = (100, 300, 1000)
ENTRIES = 10_000_000
TURNS = 9


def seconds(words):
    with subprocess.Popen(words, stdout=subprocess.PIPE) as run:
        answer = run.stdout.read()
        _, status, used = os.wait4(run.pid, 0)
        run.returncode = status
    if status != 0:
        sys.exit(f"{words} failed")
    return used.ru_utime, answer


def least_times(calls):
    times = [[] for _ in calls]
    for _ in range(TURNS):
        answers = set()
        for words, taken in zip(calls, times):
            took, answer = seconds(words)
            taken.append(took)
            answers.add(answer)
        if len(answers) != 1:
            sys.exit(f"the checksums differ at {calls}: {answers}")
    return [min(taken) for taken in times]


def main():
    proved = sys.argv[1] if len(sys.argv) > 1 else str(CRATE / "out" / "bench_runs")
    with tempfile.TemporaryDirectory() as folder:
        plain = folder + "/row_step"
        subprocess.run(["rustc", "--edition", "2024", "-O", "-o", plain, TOP / "bench" / "row_step.rs"], check=True)
        for name, factor in FACTORS.items():
            for width in WIDTHS:
                steps = ENTRIES // width
                ours, rust = least_times((
                    [proved, "row_step", str(steps), str(width), str(factor)],
                    [plain, str(width), str(steps), str(factor)],
                ))
                each = 1e9 / (steps * width)
                print(
                    f"{name:9} {width:5} entries: {ours * each:6.2f} ns an entry, "
                    f"plain Rust {rust * each:6.2f} ns, ratio {ours / rust:.2f}"
                )


main()
