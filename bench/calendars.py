#!/usr/bin/env python3
"""Reads calendars of `./roster-calendar` back: calendars.py [FOLDER [DAY..]]

For the days of bench/page.py (examples, and days that are made there) it says the calendar of two days, unfolds and
reads it by the grammar of RFC 5545, and fails where a line is too long or ends otherwise, an event lacks a property or
has one twice, two events have one UID, or an event's UID, times, name or stretches are not those of the certificate's
shift under the labels. A day without a clock in its labels gets one that passes midnight.
"""
import collections
import datetime
import hashlib
import itertools
import pathlib
import re
import subprocess
import sys

sys.dont_write_bytecode = True
from built import program_path
from page import DAYS, LABELS, MADE, texts

CLOCK = "clock 22:45 20\n"
DATES = ["2026-01-31", "2024-02-28"]
HEAD = ["BEGIN:VCALENDAR", "VERSION:2.0", "PRODID:-//Lubishon//roster//EN"]


def lines_of(text):
    """The lines of a calendar's bytes without their folds."""
    rows = text.split(b"\r\n")
    if rows.pop() != b"" or any(b"\r" in row or b"\n" in row or not 0 < len(row) <= 75 for row in rows):
        raise ValueError("lines")
    whole = []
    for row in rows:
        if row.startswith(b" "):
            whole[-1] += row[1:]
        else:
            whole.append(row)
    for row in rows:
        row.decode()
    return [row.decode() for row in whole]


def value_of(text):
    """What a value of text says; a comma, a semicolon or a backslash stands behind a backslash."""
    if not re.fullmatch(r"(?:[^\\;,]|\\[\\;,nN])*", text):
        raise ValueError(f"value {text!r}")
    return re.sub(r"\\(.)", lambda found: "\n" if found[1] in "nN" else found[1], text)


def events_of(lines):
    """The properties of each event."""
    if lines[:3] != HEAD or lines[-1] != "END:VCALENDAR":
        raise ValueError("frame")
    event = None
    for line in lines[3:-1]:
        name, _, value = line.partition(":")
        if line == "BEGIN:VEVENT" and event is None:
            event = {}
        elif line == "END:VEVENT" and event is not None:
            yield event
            event = None
        elif event is None or name in event or not re.fullmatch(r"[A-Z]+(;VALUE=DATE)?", name):
            raise ValueError(f"line {line}")
        else:
            event[name] = value
    if event is not None:
        raise ValueError("open event")


def said_labels(text):
    """The title, the clock, the code of time off, who works the shifts, and what codes and groups are called."""
    rows = [row for line in text.splitlines() if (row := line.partition("#")[0].split())]
    title = next((" ".join(row[1:]) for row in rows if row[0] == "title"), "")
    clock = next(row[1:] for row in rows if row[0] == "clock")
    hours, minutes = map(int, clock[0].split(":"))
    called = {kind: {row[1]: " ".join(row[2:]) for row in rows if row[0] == kind} for kind in ("code", "group")}
    off = next((row[1] for row in rows if row[0] == "off"), None)
    names = {int(row[1]): row[2:] for row in rows if row[0] == "shift"}
    return title, 60 * hours + minutes, int(clock[1]), off, names, called


def spans_of(word, work, off):
    """The places where the events of a word begin and end."""
    if off is None:
        places = [place for place, code in enumerate(word) if code in work]
        return [(places[0], places[-1] + 1)] if places else []
    return [found.span() for found in re.finditer(f"[^{re.escape(off)}]+", word)]


def mark_of(*parts):
    """The hexadecimal digits of a UID, over a title, the name of a group and a word."""
    counted = b"".join(len(part).to_bytes(8, "big") + part for part in map(str.encode, parts))
    return hashlib.sha256(counted).hexdigest()[:32]


def wanted(day, rules, proof, labels):
    """The events that the texts ask for."""
    title, begin, length, off, names, called = said_labels(labels)
    midnight = datetime.datetime.fromisoformat(day)
    work = {code for line in rules.decode().splitlines() if line.startswith("work ") for code in line.split()[1:]}
    stamp = f"{midnight:%Y%m%d}T000000Z"

    def moment(passed):
        return midnight + datetime.timedelta(minutes=begin + length * passed)

    def clock(passed):
        minute = begin + length * passed
        return f"{minute // 60 % 24}:{minute % 60:02}" + (f" +{minute // 1440}" if minute >= 1440 else "")

    shifts = [line.split(" ")[1:] for line in proof.decode().splitlines() if line.startswith("shift ")]
    counts = collections.Counter()
    for number, shift in enumerate(shifts, 1):
        group, word = shift[0] if len(shift) == 3 else "", shift[-2]
        counts[group, word] += 1
        of_group = called["group"].get(group, group)
        numbered = f"{of_group}: shift {number}" if of_group else f"Shift {number}"
        who = " ".join(names.get(number, [])[len(shift) - 1:])
        for first, last in spans_of(word, work, off):
            stretches, at = [], 0
            for code, run_of in itertools.groupby(word):
                end = at + len(list(run_of))
                if first <= at and end <= last:
                    stretches.append(f"{clock(at)}-{clock(end)} {called['code'].get(code, code)}")
                at = end
            place = "" if off is None else f"-{first + 1}"
            yield {
                "UID": f"{midnight:%Y%m%d}-{counts[group, word]}{place}-{mark_of(title, group, word)}@roster",
                "DTSTAMP": stamp,
                "DTSTART": f"{moment(first):%Y%m%dT%H%M%S}",
                "DTEND": f"{moment(last):%Y%m%dT%H%M%S}",
                "SUMMARY": who or numbered,
                "DESCRIPTION": "\n".join([numbered] * bool(who) + stretches),
            }


def faults(said, day, *read):
    """What is wrong with a calendar."""
    try:
        events = list(events_of(lines_of(said)))
        for event in events:
            for name in ("SUMMARY", "DESCRIPTION"):
                if name in event:
                    event[name] = value_of(event[name])
    except (ValueError, UnicodeDecodeError, IndexError) as fault:
        return [str(fault)]
    right = list(wanted(day, *read))
    if not right:
        empty = {"DTSTART;VALUE=DATE": day.replace("-", ""), "SUMMARY": "no shifts"}
        kept = [{name: value for name, value in event.items() if name not in ("UID", "DTSTAMP")} for event in events]
        return [] if kept == [empty] else [f"{kept} in place of no shifts"]
    wrong = [f"{one} in place of {other}" for one, other in zip(events, right) if one != other]
    return wrong + ([] if len(events) == len(right) else [f"{len(events)} events in place of {len(right)}"])


def look(folder, name):
    """Whether the calendars of a day are as they should be."""
    rules, demand, proof = texts(folder, name)
    text = LABELS.get(name, "")
    text += "" if "clock " in text else CLOCK
    labels = folder / f"{name}.clock.labels"
    labels.write_text(text)
    program, wrong, events = program_path("roster_page"), [], 0
    for day in DATES:
        said = subprocess.run([program, "calendar", rules, demand, proof, labels, day], capture_output=True, timeout=120)
        if said.returncode != 0:
            wrong.append(f"status {said.returncode}: {said.stdout[:80]}")
            continue
        events += said.stdout.count(b"BEGIN:VEVENT")
        wrong += faults(said.stdout, day, rules.read_bytes(), proof.read_bytes(), text)
    print(f"{name}: {events} events" + "".join(f"\n  {line[:240]}" for line in wrong[:5]))
    return not wrong


def main():
    folder = pathlib.Path(sys.argv[1] if len(sys.argv) > 1 else "/tmp/roster-pages").resolve()
    folder.mkdir(parents=True, exist_ok=True)
    good = [look(folder, name) for name in sys.argv[2:] or [*DAYS, *MADE]]
    return 0 if all(good) else 1


if __name__ == "__main__":
    sys.exit(main())
