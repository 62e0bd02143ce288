#!/usr/bin/env python3
"""Checks the order of the crates' READMEs: a title, one paragraph of what the crate is, then Proved and Only tested.

What a module is, its first line says (`bench/doc_lines.py`); the words of a definition stand in the comment over it.
The README of a crate of rows has no heading but its title.
"""
import pathlib
import re
import sys

CRATES = pathlib.Path(__file__).resolve().parent.parent / "crates"
HEADINGS = ["Proved", "Only tested"]


def is_of_rows(crate, called):
    """Crates of rows, of tests and of benches, are those that no other crate calls."""
    return crate not in called and (crate.startswith("rows_") or crate == "bench_runs")


def below():
    """The crates that each crate stands on, by crates.txt."""
    lines = (CRATES.parent / "crates.txt").read_text().splitlines()
    pairs = (line.split(":", 1) for line in lines if line and not line.startswith("#"))
    return {name: rest.split() for name, rest in pairs}


def called_crates():
    """The crates that the code of another one uses."""
    stands_on = below()
    for source in CRATES.glob("*/src/**/*.rt"):
        for used in re.findall(r"(?<![\w:])([a-z_]+)::", without_ghosts(source.read_text())):
            if used in stands_on.get(source.relative_to(CRATES).parts[0], []):
                yield used


def without_ghosts(text):
    return re.sub(r"^\s*(?:ghost use .*|//.*)$", "", text, flags=re.M)


def sections(text):
    """The text before the first heading, and the headings."""
    parts = re.split(r"^## (.*)$", text, flags=re.M)
    return parts[0], parts[1::2]


def wrong_start(crate, start, of_rows):
    title, _, rest = start.strip().partition("\n")
    if title != f"# {crate}":
        yield "the title is not the crate's name"
    paragraphs = re.split(r"\n\s*\n", rest.strip())
    if not re.match(r"[`\w]", paragraphs[0]):
        yield "no paragraph below the title"
    if not of_rows and len(paragraphs) > 1:
        yield "more than a paragraph before the first heading"


def wrong_readme(crate, called):
    start, headings = sections((CRATES / crate / "README.md").read_text())
    of_rows = is_of_rows(crate, called)
    yield from wrong_start(crate, start, of_rows)
    wanted = [] if of_rows else HEADINGS
    if headings != wanted:
        yield f"headings {', '.join(headings) or 'none'} in place of {', '.join(wanted) or 'none'}"


def main():
    crates = sorted(page.parent.name for page in CRATES.glob("*/src"))
    called = set(called_crates())
    wrong = {crate: list(wrong_readme(crate, called)) for crate in crates}
    for crate, what in wrong.items():
        for line in what:
            print(f"crates/{crate}/README.md: {line}")
    count = sum(1 for what in wrong.values() if what)
    print(f"{len(crates) - count} of {len(crates)} READMEs are in order")
    sys.exit(1 if count else 0)


if __name__ == "__main__":
    main()
