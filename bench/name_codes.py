#!/usr/bin/env python3
"""Gives each code of a rules text a name of its own: a rule `NAME 0 = 'c'` at the end, and NAME in place of `'c'`.

    bench/name_codes.py IN.rules OUT.rules

The words and their prices stay. The arc of such a rule at a period stands for the letter there, so that a search may
split on how many shifts have the code in that period. A name is `Code` and the code, or its number where it is no
letter and no digit. The text must leave room for as many names and rules as it has codes: 32 and 64 at most.
"""
import pathlib
import re
import sys


def name(code):
    return "Code" + (code if code.isalnum() else str(ord(code)))


def named(text):
    codes = []

    def replaced(match):
        code = match.group(1)
        if code not in codes:
            codes.append(code)
        return name(code)

    lines = [re.sub(r"'(.)'", replaced, line) if line.split()[:1] == ["rule"] else line
             for line in text.rstrip().split("\n")]
    return "\n".join(lines + [f"rule {name(code)} 0 = '{code}'" for code in codes]) + "\n"


def main():
    if len(sys.argv) != 3:
        sys.exit(__doc__)
    source, target = map(pathlib.Path, sys.argv[1:])
    target.write_text(named(source.read_text()))


if __name__ == "__main__":
    main()
