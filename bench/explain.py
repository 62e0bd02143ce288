#!/usr/bin/env python3
"""Times `explain` on a day of 24 and on one of 96 periods, and against the same recurrence in Rust.

The longer day is examples/g3.rules with windows four times as wide. The program is
the one that `./roster` would run; the other is bench/explain.rs by `rustc -O`.
Prints the least processor time of each, and ratios; the costs that both print must agree.
"""
import os
import pathlib
import re
import subprocess
import sys
import tempfile

sys.dont_write_bytecode = True
from built import program_path

TOP = pathlib.Path(__file__).resolve().parent.parent
TURNS = 15
SHORT = "....aaaammaapaa........."
LONG = "." * 20 + "a" * 16 + "mm" + "a" * 10 + "p" + "a" * 10 + "." * 37


def longer(text):
    text = text.replace("periods 24", "periods 96")
    return re.sub(r"(len|begin|end) (\d+) (\d+)", lambda m: f"{m[1]} {4 * int(m[2])} {4 * int(m[3])}", text)


def seconds(words):
    with subprocess.Popen(words, stdout=subprocess.PIPE) as run:
        answer = run.stdout.read().decode()
        _, status, used = os.wait4(run.pid, 0)
        run.returncode = status
    cost = [line for line in answer.splitlines() if line.startswith(("cost", "no"))]
    return used.ru_utime + used.ru_stime, cost[0]


def main():
    program = program_path()
    with tempfile.TemporaryDirectory() as folder:
        folder = pathlib.Path(folder)
        short = TOP / "examples" / "g3.rules"
        long = folder / "long.rules"
        long.write_text(longer(short.read_text()))
        other = folder / "explain"
        subprocess.run(["rustc", "--edition", "2024", "-O", "-o", other, TOP / "bench" / "explain.rs"], check=True)
        least = {}
        for name, rules, word in (("24", short, SHORT), ("96", long, LONG)):
            costs = set()
            for who, words in (("program", [program, "explain", rules, word]), ("rust", [other, rules, word])):
                times = []
                for _ in range(TURNS):
                    took, cost = seconds(words)
                    times.append(took)
                    costs.add(cost)
                least[name, who] = min(times)
            if len(costs) != 1:
                sys.exit(f"the costs differ: {costs}")
            print(f"{name} periods: {costs.pop()}, program {1000 * least[name, 'program']:.1f} ms, rust {1000 * least[name, 'rust']:.1f} ms, "
                  f"ratio {least[name, 'program'] / least[name, 'rust']:.2f}")
        print(f"96 periods against 24: {least['96', 'program'] / least['24', 'program']:.1f} times")


if __name__ == "__main__":
    main()
