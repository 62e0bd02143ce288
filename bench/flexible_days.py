#!/usr/bin/env python3
"""Draws ordinary flexible shops of 96 quarters of an hour: blocks of work, duties with a meal, needs that wander.

    bench/flexible_days.py OUT [FIRST COUNT]

OUT gets shopN.rules and shopN.demand for COUNT numbers N from FIRST on, by default the eight from 0 on: shops of four to
eight activities by turns, some with floors, some with ceilings, for bench/solve.py. The same words write the same texts.
"""
import random
import sys

CODES = "abcdefgh"


def rules(draw, n):
    """The rules of a shop with so many activities."""
    block = draw.choice([(4, 20), (4, 16), (6, 20), (4, 12)])
    least, greatest = draw.choice([(20, 40), (24, 40), (16, 36)])
    out = ["periods 96", "work " + " ".join(CODES[:n]), "idle . m", "start Day",
           "rule Day 0 = Duty", "rule Day 0 = Off Duty", "rule Day 0 = Duty Off", "rule Day 0 = Off Duty Off",
           "rule Off 0 = Free", "rule Off 0 = Free Off", "rule Free 0 = '.'",
           "rule Duty %d = Stretch Meal Stretch len %d %d" % (draw.choice([10, 20, 40]), least, greatest),
           "rule Duty 12 = Stretch len %d %d" % (least // 2, least),
           "rule Stretch 0 = Block", "rule Stretch 1 = Block Block"]
    if draw.random() < 0.6:
        out.append("rule Stretch 1 = Block Block Block")
    out.append("rule Meal 0 = 'm' 'm' 'm' 'm' begin 20 60")
    for i, c in enumerate(CODES[:n]):
        cost = 8 + draw.randint(0, 8)
        out += ["rule Block 0 = X%d len %d %d" % (i, *block), "rule X%d %d = T%d" % (i, cost, i),
                "rule X%d %d = T%d X%d" % (i, cost, i, i), "rule T%d 0 = '%s'" % (i, c)]
    return "\n".join(out) + "\n"


def demand(draw, n):
    """Its demand."""
    top = draw.choice([3, 4, 5, 6])
    out = ["heads %d %d" % (draw.choice([0, 0, 5]), draw.randint(20, 64))]
    floors, ceilings = draw.random() < 0.3, draw.random() < 0.3
    for c in CODES[:n]:
        need, x = [], draw.randint(0, top)
        for k in range(96):
            if draw.random() < 0.3:
                x = max(0, min(top, x + draw.randint(-2, 2)))
            need.append(x if 12 <= k < 88 else min(x, 1))
        out.append("need %s %d %d %s" % (c, draw.randint(25, 60), draw.randint(2, 8), " ".join(map(str, need))))
        if floors and draw.random() < 0.5:
            out.append("least %s %s" % (c, " ".join(str(min(1, v)) if 32 <= k < 64 else "0" for k, v in enumerate(need))))
        if ceilings:
            out.append("most %s %s" % (c, " ".join(str(v + 2) for v in need)))
    return "\n".join(out) + "\n"


def main(folder, first=0, count=8):
    """Writes the texts."""
    for number in range(int(first), int(first) + int(count)):
        draw = random.Random(1000 + number)
        n = 4 + number % 5
        for ending, text in (("rules", rules(draw, n)), ("demand", demand(draw, n))):
            with open(f"{folder}/shop{number}.{ending}", "w") as file:
                file.write(text)


main(*sys.argv[1:])
