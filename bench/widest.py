#!/usr/bin/env python3
"""Times the questions on a day that takes them as long as a day can: 62 rules of eight symbols on 96 periods, each of
which may stand on any span.

With MIXED as the second word every second one begins with a code. The program is the one that `./roster` would run,
or the one that is named first. Prints the processor seconds of one run of each question; of `value` those of a
roster of 64 equal shifts that do not stand side by side, and of one of four words.
"""
import os
import pathlib
import subprocess
import sys
import tempfile

sys.dont_write_bytecode = True
from built import program_path

PERIODS = 96
WORDS = ["w" * PERIODS, "v" + "w" * (PERIODS - 1), "w" * (PERIODS - 1) + "v", "wv" * (PERIODS // 2)]


def rules(mixed):
    """All spans derive from S: by letters, and by each rule where they are long enough."""
    lines = [f"periods {PERIODS}", "work w v", "start S", "rule S 1 = 'w' S", "rule S 1 = 'w'"]
    if mixed:
        lines[-2:] = ["rule S 1 = L S", "rule S 1 = L", "rule L 0 = 'w'", "rule L 0 = 'v'"]
    for number in range(64 - (len(lines) - 3)):
        first = "'w'" if mixed and number % 2 else "S"
        lines.append(f"rule S {number} = {first} S S S S S S S")
    return "\n".join(lines) + "\n"


def demand():
    needs = " ".join(str(period % 5) for period in range(PERIODS))
    return f"heads 0 64\nneed w 10 10 {needs}\nneed v 10 10 {needs}\n"


def roster(words):
    """64 shifts, in turn of each word."""
    return "".join(f"shift {words[place % len(words)]}\n" for place in range(64))


def seconds(words):
    """The processor time of a run in seconds, and the first line that it says or notes."""
    with subprocess.Popen(words, stdout=subprocess.PIPE, stderr=subprocess.STDOUT) as run:
        said = run.stdout.read().decode()
        _, status, used = os.wait4(run.pid, 0)
        run.returncode = status
    return used.ru_utime + used.ru_stime, (said.splitlines() or [""])[0]


def main():
    program = program_path(given=sys.argv[1] if len(sys.argv) > 1 else None)
    mixed = sys.argv[2:] == ["MIXED"]
    words = WORDS if mixed else WORDS[:1]
    with tempfile.TemporaryDirectory() as folder:
        def kept(name, text):
            path = pathlib.Path(folder, name)
            path.write_text(text)
            return path

        day, needs = kept("day.rules", rules(mixed)), kept("day.demand", demand())
        questions = {
            "explain": ["explain", day, words[-1]],
            "rank 1000": ["rank", day, "1000"],
            "next": ["next", day, words[-1][:48]],
            "fits": ["fits", day, "#" * PERIODS],
            "solve": ["solve", day, needs, pathlib.Path(folder, "day.proof"), "1"],
            "value, one word": ["value", day, needs, kept("one.roster", roster(words[:1]))],
        }
        if mixed:
            questions["value, four words"] = ["value", day, needs, kept("four.roster", roster(words))]
        for name, asked in questions.items():
            took, first = seconds([program, *asked])
            print(f"{name}: {first[:60]}: {took:.2f} s", flush=True)


if __name__ == "__main__":
    main()
