#!/usr/bin/env python3
"""Counts, over the sources of the crates but those of rows, the public functions that return a Result and whose doc
comment has no `# Errors`, and the functions without a comment; and over all sources the files whose first line is no
`//!` line. `--list` prints where they stand.

A function is public where it has `pub` or `pub(crate)`, or stands in a public trait; tests need no comment.
"""
import pathlib
import re
import sys

sys.dont_write_bytecode = True
from readme_order import CRATES, called_crates, is_of_rows

FUNCTION = re.compile(r"\s*(pub(?:\([\w:]+\))? )?(?:const )?fn (\w+)")


class Function:
    def __init__(self, place, name, is_public, head, comment, attributes):
        self.place = place
        self.name = name
        self.returns_result = is_public and re.search(r"\)\s*->\s*Result\b", head) is not None
        self.has_errors = any(line.strip() == "/// # Errors" for line in comment)
        self.has_comment = bool(comment)
        self.is_test = "#[test]" in attributes


def head_at(lines, number):
    """The signature of a function, up to its clauses or its body."""
    head = []
    for line in lines[number:]:
        if head and re.match(r"\s*(?:requires|ensures)\b", line):
            break
        head.append(line)
        if re.search(r"[{;]\s*$", line):
            break
    return " ".join(head)


def functions(source):
    comment, attributes, in_trait = [], [], False
    lines = source.read_text().splitlines()
    for number, line in enumerate(lines):
        if re.match(r"\s*//(?!!)", line):
            comment.append(line)
            continue
        if re.match(r"\s*#\[", line):
            attributes.append(line.strip())
            continue
        if re.match(r"\S", line):
            in_trait = re.match(r"pub(?:\(crate\))? trait\b", line) is not None
        if found := FUNCTION.match(line):
            place = f"{source.relative_to(CRATES.parent)}:{number + 1}"
            is_public = in_trait or found.group(1) is not None
            yield Function(place, found.group(2), is_public, head_at(lines, number), comment, attributes)
        comment, attributes = [], []


def product_functions():
    called = set(called_crates())
    for source in sorted(CRATES.glob("*/src/**/*.rt")):
        if not is_of_rows(source.relative_to(CRATES).parts[0], called):
            yield from (one for one in functions(source) if not one.is_test)


def sources_without_head():
    for source in sorted(CRATES.glob("*/src/**/*.rt")):
        if not source.read_text().startswith("//! "):
            yield source.relative_to(CRATES.parent)


def main():
    found = list(product_functions())
    results = [one for one in found if one.returns_result]
    without_errors = [one for one in results if not one.has_errors]
    without_comment = [one for one in found if not one.has_comment]
    without_head = list(sources_without_head())
    if "--list" in sys.argv[1:]:
        for source in without_head:
            print(f"{source}: no `//!` line")
        for one in without_errors:
            print(f"{one.place}: {one.name}: no errors")
        for one in without_comment:
            print(f"{one.place}: {one.name}: no comment")
    print(f"{len(without_errors)} of {len(results)} public functions that return a Result have no `# Errors`")
    print(f"{len(without_comment)} of {len(found)} functions have no comment")
    print(f"{len(without_head)} source files do not begin with a `//!` line")


if __name__ == "__main__":
    main()
