#!/usr/bin/env python3
"""Counts what stands in the signatures of the crates' functions: their parameters, without `self`, and the lines of
their `requires` and `ensures`, continuations too; and lists the functions with more than seven parameters.

`clauses.py` prints the crates of the search, `clauses.py CRATE..` these, `clauses.py --all` all but those of rows.
"""
import re
import sys

sys.dont_write_bytecode = True
from readme_order import CRATES, called_crates, is_of_rows

SEARCH = ["search_arc_counts", "search_node_columns", "search_columns", "search_masters", "search_candidates", "search_moves", "search_dives", "search_strong_branching",
          "search_arc_weights", "search_primal", "search_branch_price", "search_days"]
MOST = 7
FUNCTION = re.compile(r"\s*(?:pub(?:\([\w:]+\))? )?(?:const )?fn (\w+)")


def split_at_top(text):
    """The parts of a list of parameters, cut at commas that stand in no bracket."""
    depth, part = 0, ""
    for before, sign in zip(" " + text, text):
        depth += (sign in "([<{") - (sign in ")]}") - (sign == ">" and before != "-")
        if sign == "," and depth == 0:
            yield part
            part = ""
        else:
            part += sign
    yield part


def parameters_of(head):
    """How many parameters a signature has, `self` not counted."""
    begin = head.index("(", head.index("fn "))
    depth = 0
    for place in range(begin, len(head)):
        depth += (head[place] == "(") - (head[place] == ")")
        if depth == 0:
            inner = head[begin + 1:place]
            break
    names = [part.strip() for part in split_at_top(inner) if part.strip()]
    return sum(not re.fullmatch(r"(?:&(?:'\w+ )?)?(?:mut )?self", name) for name in names)


def functions(source):
    """Each function of a source: its name, its parameters and its lines of clauses."""
    lines = source.read_text().splitlines()
    number = 0
    while number < len(lines):
        found = FUNCTION.match(lines[number])
        number += 1
        if not found:
            continue
        head, clauses, in_clauses = [lines[number - 1]], 0, False
        while not re.search(r"[{;}]\s*$", head[-1]) or in_clauses:
            line = lines[number]
            in_clauses = in_clauses or re.match(r"\s*(?:requires|ensures)\b", line) is not None
            if re.fullmatch(r"\s*(?:\{\}?)?", line) and in_clauses:
                break
            if in_clauses:
                clauses += not re.match(r"\s*//", line)
                if line.rstrip().endswith("};"):
                    number += 1
                    break
            head.append(line)
            number += 1
        yield found.group(1), parameters_of(" ".join(head)), clauses


def main():
    words = sys.argv[1:]
    if words == ["--all"]:
        called = set(called_crates())
        crates = sorted(path.name for path in CRATES.iterdir() if not is_of_rows(path.name, called))
    else:
        crates = words or SEARCH
    print("| crate | functions | parameters | lines of clauses | with more than seven parameters |")
    print("|---|---|---|---|---|")
    sums = [0, 0, 0, 0]
    for crate in crates:
        found = [(one, source.stem) for source in sorted((CRATES / crate / "src").rglob("*.rt"))
                 for one in functions(source)]
        long = [f"`{stem}::{name}` {count}" for (name, count, _), stem in found if count > MOST]
        row = [len(found), sum(one[1] for one, _ in found), sum(one[2] for one, _ in found), len(long)]
        sums = [a + b for a, b in zip(sums, row)]
        print(f"| `{crate}` | {row[0]} | {row[1]} | {row[2]} | {', '.join(long)} |")
    print(f"| all | {sums[0]} | {sums[1]} | {sums[2]} | {sums[3]} |")


if __name__ == "__main__":
    main()
