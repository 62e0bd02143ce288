#!/usr/bin/env python3
"""Reads tables of `./roster-table` and `./roster-coverage` back: table.py [FOLDER [DAY..]]

For the days of bench/page.py (examples, and days that are made there) it says both tables, reads them with the csv
module of Python, and fails where a record lacks a field, the stretches do not give back the words of the certificate,
two stretches of one code stand side by side, a shift's price is not that of the certificate, or a field could be read
as a formula; and where the words do not have what a record of coverage says, or prices and penalties do not come to the
cost.
"""
import csv
import io
import pathlib
import sys

sys.dont_write_bytecode = True
from built import program_path
from page import DAYS, LABELS, MADE, run, texts

HEAD = ["shift", "group", "code", "name", "first", "last", "begin", "end", "price", "employee", "amount"]
COVER_HEAD = ["code", "name", "period", "begin", "end", "need", "have", "short", "over", "floor", "ceiling", "penalty",
              "amount"]


def stated(proof):
    """The words and prices of a certificate's shifts."""
    lines = [line.split(" ") for line in pathlib.Path(proof).read_text().splitlines() if line.startswith("shift ")]
    return [(line[-2], line[-1]) for line in lines]


def plain(field):
    return field[1:] if field.startswith("'") and field[1:2] in ("=", "+", "-", "@") else field


def faults(records, shifts):
    """What is wrong with the records of these shifts."""
    words, prices, last = [""] * len(shifts), [""] * len(shifts), None
    for record in records:
        if len(record) != len(HEAD) or any(field[:1] in ("=", "+", "-", "@") for field in record):
            yield f"fields {record}"
        number, code, first, end = int(record[0]) - 1, plain(record[2]), int(record[4]), int(record[5])
        if first != len(words[number]) + 1 or end < first or last == (number, code):
            yield f"stretch {record}"
        words[number] += code * (end + 1 - first)
        prices[number] += record[8]
        last = (number, code)
    if list(zip(words, prices)) != shifts:
        yield f"words {list(zip(words, prices))[:3]}.. in place of {shifts[:3]}.."


def cover_faults(records, shifts, cost):
    """What is wrong with the records of how these shifts cover the needs."""
    total = sum(int(price) for _, price in shifts)
    for record in records:
        if len(record) != len(COVER_HEAD):
            yield f"fields {record}"
        code, period = plain(record[0]), int(record[2])
        need, have, short, over = map(int, record[5:9])
        if have != sum(word[period - 1] == code for word, _ in shifts) or need != have + short - over or short * over:
            yield f"cover {record}"
        total += int(record[11])
    if cost != "none" and str(total) != cost:
        yield f"total {total} in place of {cost}"


def records_of(kind, head, words):
    """The records of a table behind its head, or what is wrong."""
    said = run([program_path("roster_page"), kind, *words])
    records = list(csv.reader(io.StringIO(said.stdout.removeprefix("\ufeff"))))
    wrong = [] if said.returncode == 0 and records[:1] == [head] else [f"status {said.returncode}: {said.stdout[:80]}"]
    return records[1:], wrong


def look(folder, name):
    """Whether the tables of a day are as they should be."""
    words = list(texts(folder, name))
    proof = pathlib.Path(words[2])
    if name in LABELS:
        labels = folder / f"{name}.labels"
        labels.write_text(LABELS[name])
        words.append(labels)
    cost = next(line.split(" ")[1] for line in proof.read_text().splitlines() if line.startswith("cost "))
    records, wrong = records_of("table", HEAD, words)
    wrong = wrong or list(faults(records, stated(proof)))
    covers, missing = records_of("coverage", COVER_HEAD, words)
    wrong += missing or list(cover_faults(covers, stated(proof), cost))
    print(f"{name}: {len(records)} and {len(covers)} records" + "".join(f"\n  {line}" for line in wrong))
    return not wrong


def main():
    folder = pathlib.Path(sys.argv[1] if len(sys.argv) > 1 else "/tmp/roster-pages").resolve()
    folder.mkdir(parents=True, exist_ok=True)
    good = [look(folder, name) for name in sys.argv[2:] or [*DAYS, *MADE]]
    return 0 if all(good) else 1


if __name__ == "__main__":
    sys.exit(main())
