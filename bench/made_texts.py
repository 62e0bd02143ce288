#!/usr/bin/env python3
"""Writes the texts of the days that `make` makes from numbers, for bench/master.py and the program.

Words: a folder, the first number, and the last. The files are madeNUMBER.rules and madeNUMBER.demand. The day
is drawn as docs/TEXTS.md says under `make`, and the grammar is that of examples/g3.rules.
"""
import pathlib
import re
import sys

TOP = pathlib.Path(__file__).resolve().parent.parent
GRAMMAR = TOP / "examples" / "g3.rules"


class Generator:
    """Draws numbers, one after another."""

    def __init__(self, number):
        self.state = number

    def draw(self, limit):
        self.state = (self.state * 6364136223846793005 + 1442695040888963407) % 2**64
        return (self.state >> 33) % limit


def texts(number):
    """The rules text and the demand text of the day of a number."""
    generator = Generator(number)
    periods = 24 + generator.draw(13)
    cost = 10 + generator.draw(11)
    under = 20 + generator.draw(11)
    needs = [[generator.draw(limit) for _ in range(periods)] for limit in (4, 3)]
    rules = re.sub(r"(?m)^periods \d+$", f"periods {periods}", GRAMMAR.read_text())
    rules = re.sub(r"(?m)^rule D \d+", f"rule D {cost}", rules)
    lines = ["heads 0 10"]
    for code, need in zip("ab", needs):
        lines.append(" ".join(map(str, ["need", code, under, 1, *need])))
    return rules, "\n".join(lines) + "\n"


def main():
    if len(sys.argv) != 4:
        sys.exit("usage: made_texts.py FOLDER FIRST LAST")
    folder = pathlib.Path(sys.argv[1])
    for number in range(int(sys.argv[2]), int(sys.argv[3]) + 1):
        rules, demand = texts(number)
        (folder / f"made{number}.rules").write_text(rules)
        (folder / f"made{number}.demand").write_text(demand)


if __name__ == "__main__":
    main()
