#!/usr/bin/env python3
"""Times the questions about a day of 96 periods against one fill of the table of least sums, by whole runs.

The day is examples/g3.rules with windows four times as wide, as in bench/explain.py. A fill is what `rank RULES 1`
takes, less what a run takes on a day of one period. The program is the one that `./roster`
would run, or the one that is named. Prints the least processor time of each question, and in how many fills.
"""
import importlib.util
import os
import pathlib
import subprocess
import sys
import tempfile

sys.dont_write_bytecode = True
from built import program_path

TOP = pathlib.Path(__file__).resolve().parent.parent
TURNS = 7


def explain_bench():
    spec = importlib.util.spec_from_file_location("explain", TOP / "bench" / "explain.py")
    module = importlib.util.module_from_spec(spec)
    spec.loader.exec_module(module)
    return module


def least(words):
    """The least processor time of a run in milliseconds, and its first line."""
    best, first = None, None
    for _ in range(TURNS):
        with subprocess.Popen(words, stdout=subprocess.PIPE) as run:
            said = run.stdout.read().decode()
            _, status, used = os.wait4(run.pid, 0)
            run.returncode = status
        took = 1000 * (used.ru_utime + used.ru_stime)
        best, first = (took if best is None else min(best, took)), said.splitlines()[0]
    return best, first


def main():
    program = program_path(given=sys.argv[1] if len(sys.argv) > 1 else None)
    explain = explain_bench()
    with tempfile.TemporaryDirectory() as folder:
        rules, small = pathlib.Path(folder, "long.rules"), pathlib.Path(folder, "small.rules")
        rules.write_text(explain.longer((TOP / "examples" / "g3.rules").read_text()))
        small.write_text("periods 1\nwork a\nstart S\nrule S 0 = 'a'\n")
        rest, _ = least([program, "rank", small, "1"])
        fill, _ = least([program, "rank", rules, "1"])
        fill -= rest
        print(f"one fill {fill:.1f} ms, the rest of a run {rest:.1f} ms")
        questions = {
            "rank 1000": ["rank", rules, "1000"],
            "next, 48 letters": ["next", rules, explain.LONG[:48]],
            "next, 48 letters that begin no shift": ["next", rules, "a" * 48],
            "fits, 96 open periods": ["fits", rules, "#" * 96],
        }
        for name, words in questions.items():
            took, first = least([program, *words])
            print(f"{name}: {first}: {took - rest:.1f} ms, {(took - rest) / fill:.1f} fills")


if __name__ == "__main__":
    main()
