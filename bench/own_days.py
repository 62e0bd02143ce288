#!/usr/bin/env python3
"""Writes days for bench/solve.py: wards with nights and shops with five activities, and each day in three orders.

    bench/own_days.py OUT [FOLDER DAY..]

OUT gets nights0, nights1, nights2 and five0, five1, five2, and the named days of FOLDER. Of each day stand there the
rules and the demand as they are, under DAY-0, and twice with the lines of the rules and the work codes in another
order, under DAY-1 and DAY-2: the same rosters at the same costs, among which ties fall otherwise. The same words write
the same texts.
"""
import pathlib
import random
import sys

NIGHTS = """periods 48
work a b c
idle . p
start S
rule S 0 = O T O
rule S 0 = T O
rule S 0 = O T
rule S 0 = O T O T
rule T 60 = W 'p' W len 13 17 begin 11 17
rule T 64 = W 'p' W 'p' W len 15 18 begin 25 30
rule T 80 = W 'p' W len 12 15 begin 1 1
rule T 28 = W len 6 8 begin 37 43
rule T 33 = W len 6 9 begin 13 35
rule W 0 = B len 3 8
rule W 2 = B B len 5 8
rule B 0 = Xa len 2 6
rule B 0 = Xb len 2 6
rule B 0 = Xc len 3 6
rule Xa 1 = 'a'
rule Xa 1 = 'a' Xa
rule Xb 1 = 'b'
rule Xb 1 = 'b' Xb
rule Xc 1 = 'c'
rule Xc 1 = 'c' Xc
rule O 0 = '.'
rule O 0 = '.' O
"""

FIVE = """periods 48
work a b c d e
idle . p m
start S
rule S 0 = D
rule S 0 = O D
rule S 0 = D O
rule S 0 = O D O
rule D 22 = M 'p' M 'm' M len 13 17 begin 14 28 end 28 46
rule D 13 = M 'p' M len 7 9 begin 14 36 end 22 46
rule D 10 = M len 4 6 begin 14 40 end 18 46
rule M 0 = B len 3 7
rule M 2 = B B len 4 7
""" + "".join(f"rule B 0 = X{code} len 2 5\nrule X{code} 2 = '{code}'\nrule X{code} 2 = '{code}' X{code}\n" for code in "abcde") + """rule O 0 = '.'
rule O 0 = '.' O
"""


def curve(chance, low, high, first, last, peaks):
    """Needs that rise from low to high between two periods, highest at the peaks, with some chance in each."""
    needs = []
    for period in range(1, 49):
        near = max(0.0, *(1 - abs(period - peak) / 9 for peak in peaks))
        middle = low + (high - low) * (0.45 + 0.55 * near) if first <= period <= last else low
        needs.append(max(0, round(middle + chance.uniform(-1.1, 1.1))))
    return needs


def nights(number):
    chance = random.Random(f"nights{number}")
    lines = ["heads 6 34"]
    for code, under, high in (("a", 75, 6), ("b", 85, 8), ("c", 30, 4)):
        low = 2 if code == "b" else 1 if code == "a" else 0
        lines.append(" ".join(map(str, ["need", code, under, 1, *curve(chance, low, high, 13, 43, (18, 34))])))
    return NIGHTS, "\n".join(lines) + "\n"


def five(number):
    chance = random.Random(f"five{number}")
    lines = ["heads 3 26"]
    for code in "abcde":
        under, high = chance.randint(20, 45), chance.randint(2, 5)
        lines.append(" ".join(map(str, ["need", code, under, 2, *curve(chance, 0, high, 16, 44, (24, 39))])))
    return FIVE, "\n".join(lines) + "\n"


def shuffled(lines, begins, chance):
    """The lines, those that begin with one of the words in another order at the same places."""
    places = [place for place, line in enumerate(lines) if line.split(" ", 1)[0] in begins]
    chosen = [lines[place] for place in places]
    chance.shuffle(chosen)
    lines = list(lines)
    for place, line in zip(places, chosen):
        lines[place] = line
    return lines


def in_order(name, rules, demand, number):
    """The texts of a day with its rules, work codes and needs in the order of this number, 0 for their own."""
    if number == 0:
        return rules, demand
    chance = random.Random(f"{name} {number}")
    lines = shuffled(rules.splitlines(), ("rule",), chance)
    for place, line in enumerate(lines):
        if line.startswith("work "):
            codes = line.split()[1:]
            chance.shuffle(codes)
            lines[place] = " ".join(["work", *codes])
    return "\n".join(lines) + "\n", "\n".join(shuffled(demand.splitlines(), ("need",), chance)) + "\n"


def main():
    if len(sys.argv) < 2:
        sys.exit(__doc__)
    out = pathlib.Path(sys.argv[1])
    days = {f"nights{number}": nights(number) for number in range(3)}
    days |= {f"five{number}": five(number) for number in range(3)}
    for name in sys.argv[3:]:
        folder = pathlib.Path(sys.argv[2])
        days[name] = (folder / f"{name}.rules").read_text(), (folder / f"{name}.demand").read_text()
    out.mkdir(parents=True, exist_ok=True)
    for name, (rules, demand) in days.items():
        for number in range(3):
            texts = in_order(name, rules, demand, number)
            for kind, text in zip(("rules", "demand"), texts):
                (out / f"{name}-{number}.{kind}").write_text(text)


main()
