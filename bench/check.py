#!/usr/bin/env python3
"""Times `check`: reading a long proof text against `wc -w`, and judging many priced nodes.

The program is the one that `./roster` would run. The long text is a certificate
of a day of 96 periods that is cut before its end, so it is read whole and refused; its first split is on
no arc, so no value is computed. The nodes are those of a chain of splits on arcs of examples/g3.rules,
a day of 24 periods and two activities, each leaf with prices of its own. Judging them is timed against as
many fills of the table by crates/bench_runs, as `rt run` builds it there, both without the time of a run
with one; at most 1.5 is asked. Twice as many nodes should take twice the time. Prints the least processor
time of each, and ratios.
"""
import os
import pathlib
import subprocess
import sys
import tempfile

sys.dont_write_bytecode = True
from built import program_path

TOP = pathlib.Path(__file__).resolve().parent.parent
PROGRAM = program_path()
FILLS = TOP / "crates" / "bench_runs" / "out" / "bench_runs"
RULES, DEMAND = TOP / "examples" / "g3.rules", TOP / "examples" / "g3.demand"
TURNS = 5
NODES = 1000
MEGABYTES = 100


def seconds(words, given=None):
    with open(given or os.devnull) as text, subprocess.Popen(words, stdin=text, stdout=subprocess.PIPE) as run:
        answer = run.stdout.read().decode()
        _, status, used = os.wait4(run.pid, 0)
        run.returncode = status
    return used.ru_utime + used.ru_stime, answer.strip().splitlines()[0]


def least(words):
    times = [seconds(words) for _ in range(TURNS)]
    return min(took for took, _ in times), times[0][1]


def long_day(folder):
    codes = "abcdefgh"
    (folder / "day.rules").write_text(
        "periods 96\nwork " + " ".join(codes) + "\nstart S\nrule S 0 = A\nrule S 0 = A S\n"
        + "".join(f"rule A 1 = '{c}'\n" for c in codes))
    (folder / "day.demand").write_text("heads 0 9\n" + "".join(f"need {c} 10 3" + " 1" * 96 + "\n" for c in codes))
    block = "priced 1073741824\n" + "".join(f"price {c}" + " -1208925819614629174706176" * 96 + "\n" for c in codes)
    head = "proof 1\ncost none\nbound 0\n"
    nodes = MEGABYTES * 1_000_000 // (len(block) + 20)
    with open(folder / "long.proof", "w") as out:
        out.write(head)
        for _ in range(nodes):
            out.write("split 1 0 1 96 96 0\n" + block)


def arcs(folder):
    found = []
    for rule in (10, 12):
        for start in range(1, 25):
            for length in range(2, 9):
                words = f"{rule} 0 {start} {length} 1"
                (folder / "one.proof").write_text(f"proof 1\ncost none\nbound 0\nsplit {words} 0\nbare\nbare\nend\n")
                if seconds([PROGRAM, "check", RULES, DEMAND, folder / "one.proof"])[1] == "yes":
                    found.append(words)
    return found


def leaf(number):
    """A priced leaf, whose prices are those of the fill of this number, of the other sign."""
    numbers = [[(7 * number + 31 * code + 17 * period) % 100 for period in range(1, 25)] for code in range(2)]
    return "priced 1\n" + "".join(f"price {code} " + " ".join(map(str, row)) + "\n" for code, row in zip("ab", numbers))


def chain(folder, arcs, leaves):
    splits = [(arc, b) for arc in arcs for b in range(12)][:leaves - 1]
    if len(splits) != leaves - 1:
        sys.exit("too few arcs")
    nodes = [f"split {arc} {b}\n{leaf(number)}" for number, (arc, b) in enumerate(splits, 1)]
    path = folder / f"nodes{leaves}.proof"
    path.write_text("proof 1\ncost none\nbound 0\n" + "".join(nodes) + leaf(leaves) + "end\n")
    return path


def least_in_turn(runs):
    """The least time of each run, all taken in turn, so that other work on the machine slows all alike."""
    turns = [[seconds(*run) for run in runs] for _ in range(TURNS)]
    return [min(took for took, _ in times) for times in zip(*turns)], [said for _, said in turns[0]]


def judging(folder):
    found = arcs(folder)
    runs = [([PROGRAM, "check", RULES, DEMAND, chain(folder, found, leaves)], None) for leaves in (1, NODES, 2 * NODES)]
    runs += [([FILLS, "fill", str(count)], RULES) for count in (1, NODES)]
    (one, nodes, twice, start, fills), said = least_in_turn(runs)
    if said[:3] != ["yes"] * 3:
        sys.exit(f"a chain is refused: {said}")
    print(f"judging {NODES} priced leaves: {nodes - one:.3f} s beyond one of {one:.3f} s")
    print(f"filling {NODES} times: {fills - start:.3f} s beyond one of {start:.3f} s")
    print(f"nodes against fills: {(nodes - one) / (fills - start):.2f}, at most 1.5 is asked")
    print(f"twice the nodes: {(twice - one) / (nodes - one):.2f} times; arcs to split on: {len(found)}")


def main():
    if not FILLS.exists():
        sys.exit("run `rt run` in crates/bench_runs: it builds the program")
    with tempfile.TemporaryDirectory() as name:
        folder = pathlib.Path(name)
        long_day(folder)
        read, said = least([PROGRAM, "check", folder / "day.rules", folder / "day.demand", folder / "long.proof"])
        counted, _ = least(["wc", "-w", folder / "long.proof"])
        size = (folder / "long.proof").stat().st_size / 1e6
        print(f"reading {size:.0f} MB ({said}): {read:.2f} s, wc -w {counted:.2f} s, ratio {read / counted:.2f}")
        judging(folder)


if __name__ == "__main__":
    main()
