#!/usr/bin/env python3
"""Runs the commands of README.md, docs/PLANNING.md and docs/PAGE.md: planning.py [PROGRAM [PAGE_PROGRAM]]

A block that is headed `rules FILE`, `demand FILE`, `roster FILE` or `labels FILE` must stand in that file, line for
line. The commands of a `console` block are run as a shell runs them, in a folder with `examples` and the scripts, and
what they print must be what the page shows; a last line `...` stands for further lines. Commands that stand in a block
of their own, as in the box for planners, must end with status 0. Each fault of the table of PLANNING.md must come from
an edit of a day of examples/ below, and no fault may be missing there.

The programs are those that `./roster` and `./roster-page` would run, or those that are named. Where there is none, it
fails.
"""
import pathlib
import re
import subprocess
import sys
import tempfile

sys.dont_write_bytecode = True
from built import program_path

TOP = pathlib.Path(__file__).resolve().parent.parent
PAGE = (TOP / "docs" / "PLANNING.md").read_text()
README = (TOP / "README.md").read_text()
ROSTER_PAGE = (TOP / "docs" / "PAGE.md").read_text()
# The commands that need no run: they change the checkout, or the machine.
LEFT = ("git clone ", "cd ", "./prove", "./install")
RULES, DEMAND = "examples/shop.rules", "examples/shop.demand"
# What is noted of odd rules and demands, which a block may leave out.
ODD = re.compile(r"^(?:rules|demand): (?:line \d+: )?(?:no shift|no group|the same rule|there is|len|begin|end)\b.*\n"
                 r"|^and \d+ more\n", re.M)
# What a search that takes long notes of itself.
PROGRESS = re.compile(r"^(?:solve|make|curve): .*, \d+ s(?: of \d+)?\n", re.M)
TILL = "need t 60 5 1 1 1 1 1 1 1 2 2 2 1 1"

# The faults of the page's table: the file, what is replaced in it, and by what.
FAULTS = {
    "bad byte": (RULES, "idle . m", "idle . \u00e9"),
    "unknown line": (RULES, "start Day", "begin Day"),
    "bad number": (RULES, "rule Till 15 = AtTill\n", "rule Till 1.5 = AtTill\n"),
    "out of range": (RULES, "len 8 9", "len 9 8"),
    "bad name": (RULES, "start Day", "start len"),
    "said twice": (RULES, "start Day", "start Day\nstart Day"),
    "unknown code": (RULES, "'m'", "'p'"),
    "empty right side": (RULES, "rule Off 0 = Free\n", "rule Off 0 =\n"),
    "too many codes, at most 32": (RULES, "idle . m", "idle . m " + " ".join("ABCDEFGHIJKLMNOPQRSTUVWXYZ01")),
    "a name has no rule": (RULES, "rule Day 0 = Off Duty\n", "rule Day 0 = Of Duty\n"),
    "a name leads back to itself by one-symbol rules": (
        RULES, "rule Off 0 = Free\n", "rule Off 0 = Free\nrule Off 0 = Off\n"),
    "no periods line": (RULES, "periods 12\n", ""),
    "no start line": (RULES, "start Day\n", ""),
    "not a work code": (DEMAND, "need t", "need m"),
    "wrong count of needs": (DEMAND, TILL, TILL + " 1"),
    "no need line before": (DEMAND, TILL, "least t 1 1 1 1 1 1 1 1 1 1 1 1"),
    "no heads line": (DEMAND, "heads 2 4\n", ""),
    "no such name": (DEMAND, "heads 2 4", "group Shop 2 4"),
    "heads and groups together": (DEMAND, "heads 2 4", "heads 2 4\ngroup Duty 2 4"),
    "too many groups, at most 8": (DEMAND, "heads 2 4", "".join(
        f"group {name} 0 1\n" for name in "Day Off Duty Stretch Task Till Counter Shelves Day".split())),
    "the text is too long": (RULES, "start Day", "start Day #" + "x" * 1_048_576),
}
# The greatest numbers that the table names beside those of codes.
MANY = {
    "work codes": (8, "work t c s", "work t c s A B C D E F"),
    "names": (32, "start Day", "start Day\n" + "".join(f"rule N{n} 0 = 't'\n" for n in range(32))),
    "rules": (64, "start Day", "start Day\n" + "rule Day 0 = 't'\n" * 64),
    "symbols": (8, "rule Off 0 = Free\n", "rule Off 0 = " + "Free " * 9 + "\n"),
}


def blocks():
    return re.findall(r"^```(\w+)(?: (\S+))?\n(.*?)^```$", README + PAGE + ROSTER_PAGE, re.M | re.S)


def is_in_examples(name, text):
    return "\n" + text in "\n" + (TOP / name).read_text()


def commands(text):
    """The commands of a block with the lines that each prints."""
    for part in re.split(r"^\$ ", text, flags=re.M)[1:]:
        command, _, printed = part.partition("\n")
        yield command, printed


def is_as_shown(shown, said):
    if not shown.endswith("\n...\n"):
        return said == shown
    front = shown.removesuffix("...\n")
    return said.startswith(front) and said != front


def call(command, folder):
    text = command.replace("/tmp/", f"{folder}/")
    return subprocess.run(["sh", "-c", text], cwd=folder, capture_output=True)


def run(command, folder):
    """What a command prints, without what a long search notes of itself."""
    done = call(command, folder)
    return done.stdout.decode() + PROGRESS.sub("", done.stderr.decode())


def bare_commands():
    """The commands of the blocks that show nothing: of the box for planners, and the indented lines of PAGE.md."""
    for block in re.findall(r"^ *```\n(.*?)^ *```$", re.sub(r"^> ?", "", README, flags=re.M), re.M | re.S):
        yield from (line.strip() for line in block.splitlines())
    yield from re.findall(r"^    (\./.*)$", ROSTER_PAGE, re.M)


def scripts(folder, program, page_program):
    """Writes the scripts that the pages name, which call these programs."""
    (folder / "roster").symlink_to(program)
    for word in ("page", "table", "coverage", "calendar"):
        script = folder / f"roster-{word}"
        script.write_text(f'#!/bin/sh\nexec "{page_program}" {word} "$@"\n')
        script.chmod(0o755)


def edited(file, old, new, folder):
    """What `solve` says of the shop's day with this edit."""
    text = (TOP / file).read_text()
    if old not in text:
        return f"{file} has no {old!r}"
    names = {RULES: RULES, DEMAND: DEMAND, file: "edited"}
    (folder / "edited").write_text(text.replace(old, new, 1))
    return run(f"./roster solve {names[RULES]} {names[DEMAND]} /tmp/edited.proof 1", folder)


def wrong_faults(folder):
    listed = re.findall(r"^\| `([^`]*)` \| [^|]* \|$", PAGE.partition("## When a line is refused")[2], re.M)
    if listed != list(FAULTS):
        yield f"the table of faults differs: {set(listed) ^ set(FAULTS)}"
    many = {f"too many {what}, at most {most}": (RULES, old, new) for what, (most, old, new) in MANY.items()}
    for fault, (file, old, new) in {**FAULTS, **many}.items():
        said = edited(file, old, new, folder)
        kind = pathlib.Path(file).suffix[1:]
        if not re.fullmatch(rf"{kind}: (line \d+: )?{re.escape(fault)}\n{kind}: .+\n", said):
            yield f"{fault}: {said!r}"
    said = run(f"./roster solve /tmp/absent {DEMAND} /tmp/edited.proof 1", folder)
    if said != f"{folder}/absent: no such file\n":
        yield f"an absent file: {said!r}"


def wrong_commands(folder):
    for kind, _, text in blocks():
        for command, shown in commands(text) if kind == "console" else ():
            said = run(command, folder)
            if not is_as_shown(shown, said) and not is_as_shown(shown, ODD.sub("", said)):
                yield f"$ {command}\n{said}"


def wrong_bare_commands(folder):
    """Runs the commands that show nothing, in their order; an old certificate that PAGE.md names is the one before."""
    ran = 0
    for command in bare_commands():
        if command.startswith(LEFT):
            continue
        for name in ("new", "old"):
            if f"/tmp/{name}.proof" in command:
                (folder / f"{name}.proof").write_bytes((folder / "shop.proof").read_bytes())
        done = call(command, folder)
        ran += 1
        if done.returncode:
            yield f"$ {command}\nstatus {done.returncode}: {done.stdout.decode()}{done.stderr.decode()}"
    if ran < 6:
        yield f"only {ran} commands stand in blocks of their own"


def main():
    given = [*sys.argv[1:3], None, None]
    program, page_program = program_path(given=given[0]), program_path("roster_page", given[1])
    wrong = [f"not in {name}:\n{text}" for kind, name, text in blocks()
             if kind in ("rules", "demand", "roster", "labels") and not is_in_examples(name, text)]
    with tempfile.TemporaryDirectory() as name:
        folder = pathlib.Path(name)
        (folder / "examples").symlink_to(TOP / "examples")
        scripts(folder, program, page_program)
        wrong += [*wrong_commands(folder), *wrong_bare_commands(folder), *wrong_faults(folder)]
    if wrong:
        sys.exit("\n".join(["README.md, docs/PLANNING.md or docs/PAGE.md is wrong:", *wrong]))
    print("README.md, docs/PLANNING.md and docs/PAGE.md are right")


if __name__ == "__main__":
    main()
