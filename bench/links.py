#!/usr/bin/env python3
"""Checks the pages: that each relative link leads to a file that is there, and to a heading of it where it names one;
that each file that README.md, CONTRIBUTING.md and docs/ name by its path is there; that each command of the
program is named in docs/PLANNING.md, docs/TEXTS.md, the man page and the completion of share/; and that the man page
has each status of docs/TEXTS.md.

The commands are the words that crates/command_line/specs/Form.antt compares the first word with, and the scripts that
docs/TEXTS.md has a section of.
"""
import pathlib
import re
import sys

TOP = pathlib.Path(__file__).resolve().parent.parent
PAGES = [TOP / "README.md", TOP / "CONTRIBUTING.md", *sorted((TOP / "docs").glob("*.md"))]
OTHERS = [TOP / "bench" / "README.md", *sorted((TOP / "crates").glob("*/README.md"))]
FORMS = TOP / "crates" / "command_line" / "specs" / "Form.antt"
TEXTS = (TOP / "docs" / "TEXTS.md").read_text()
MANUAL = TOP / "share" / "roster.1"
COMPLETION = TOP / "share" / "roster.bash"


def without_code(page):
    return re.sub(r"^[> ]*```.*?^[> ]*```$", "", page.read_text(), flags=re.M | re.S)


def anchors(page):
    """The names under which a browser finds a page's headings."""
    for heading in re.findall(r"^[> ]*#+ +(.*)$", without_code(page), re.M):
        yield re.sub(r"[^\w\- ]", "", heading.lower()).replace(" ", "-")


def wrong_links(page):
    for link in re.findall(r"\]\(([^)\s]+)\)", without_code(page)):
        if re.match(r"\w+:", link):
            continue
        name, _, heading = link.partition("#")
        target = (page.parent / name).resolve() if name else page
        if not target.exists():
            yield f"{link} is not there"
        elif heading and heading not in anchors(target):
            yield f"{link} is no heading"


def wrong_names(page):
    for name in re.findall(r"`((?:bench|crates|docs|examples)/[\w./-]+)", without_code(page)):
        if not re.search(r"\b[A-Z]{2,}\b(?!\.md)", name) and not (TOP / name.rstrip(".")).exists():
            yield f"{name} is not there"


def commands():
    return re.findall(r'bytes_eq command \(codes "([\w-]+)"\)', FORMS.read_text())


def scripts():
    return re.findall(r"^## What `\./(roster-\w+)` says$", TEXTS, re.M)


def statuses():
    """The numbers of the table of statuses."""
    table = TEXTS.partition("\n## Statuses\n")[2]
    return [number for row in re.findall(r"^\| ([\d, ]+) \|", table, re.M) for number in row.split(", ")]


def wrong_shares():
    """What the man page and the completion lack of the commands, the scripts and the statuses."""
    manual, completion = MANUAL.read_text(), COMPLETION.read_text()
    ends = manual.partition('\n.SH EXIT STATUS\n')[2].partition("\n.SH ")[0]
    commands_part = manual.partition("\n.SH COMMANDS\n")[2].partition("\n.SH ")[0]
    offered = re.search(r'1:\*\) _roster_words "([^"]*)"', completion)[1].split()
    completed = " ".join(re.findall(r"^complete (.*)$", completion, re.M)).split()
    for word in commands():
        if f'.BI "roster {word} "' not in manual or f"\n.B {word}\n" not in commands_part:
            yield f"share/roster.1: no command {word}"
        if word not in offered:
            yield f"share/roster.bash: no command {word}"
    for word in scripts():
        if f'.BI "{word} "' not in manual or f"\n.B {word}\n" not in commands_part:
            yield f"share/roster.1: no {word}"
        if word not in completed:
            yield f"share/roster.bash: no {word}"
    if not statuses() or not scripts():
        yield "docs/TEXTS.md: no statuses, or no scripts"
    yield from (f"share/roster.1: no status {it}" for it in statuses() if f"\n.B {it}\n" not in ends)
    yield from (f"share/roster.1: status {it} is none" for it in re.findall(r"^\.B (\d+)$", ends, re.M)
                if it not in statuses())


def wrong_pages():
    for page in PAGES + OTHERS:
        wrong = [*wrong_links(page), *(wrong_names(page) if page in PAGES else ())]
        yield from (f"{page.relative_to(TOP)}: {what}" for what in wrong)
    if not commands():
        yield f"{FORMS.relative_to(TOP)} names no command"
    for page, form in (("PLANNING.md", "./roster {} "), ("TEXTS.md", "`{} ")):
        text = (TOP / "docs" / page).read_text()
        yield from (f"docs/{page}: no `{word}`" for word in commands() if form.format(word) not in text)
    yield from wrong_shares()


def main():
    if wrong := list(wrong_pages()):
        sys.exit("\n".join(wrong))
    print(f"the links of {len(PAGES + OTHERS)} pages lead somewhere, and {len(commands())} commands and "
          f"{len(statuses())} statuses stand where they belong")


if __name__ == "__main__":
    main()
