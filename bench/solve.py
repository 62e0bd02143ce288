#!/usr/bin/env python3
"""Solves days, and says cost, bound, turns and processor time, beside two general solvers where they are installed.

    bench/solve.py [--turns N] [--seconds N] [--limit SECONDS] [--program PROGRAM] [--peers FOLDER] [--parts]
                   [FOLDER [DAY..]]

FOLDER has DAY.rules and DAY.demand for each day, by default the days of examples/ that a planner would know. PROGRAM
is by default the one that `./roster` would run. A run that takes longer than the
limit is given up. Each row has the day, cost and bound, the turns used and those of them without prices, the processor
seconds and the memory of `solve`, and the seconds of `check` on what it stored; each solve is made twice, and the two
texts must be the same. With --seconds that many are the search's limit in place of turns: each solve is made once, and
its seconds are those on the clock.

With --parts each row ends with processor seconds by part, from samples of one more run by Debian's linux-perf. The
widest number of the exact path at a root is told by bench/master.rs.

With --peers, a folder with a program solve.py RULES DEMAND --solver cbc|highs --limit SECONDS, each row has also what
CBC and HiGHS give within the limit, and the ratio of this program's seconds to those of the faster one that proved its
optimum: processor seconds of the whole call in each case, for the peers with the model that a script builds. They are
Debian's packages: apt-get install --no-install-recommends coinor-cbc python3-scipy.
"""
import argparse
import os
import pathlib
import re
import shutil
import signal
import subprocess
import sys
import tempfile
import time

sys.dont_write_bytecode = True
from built import program_path

TOP = pathlib.Path(__file__).resolve().parent.parent
SOLVERS = ("cbc", "highs")
# The crates that do each part of a search.
PARTS = {
    "float program": {"lp_float_basis", "lp_float_simplex", "lp_float_programs"},
    "exact path": {"lp_tableaus", "lp_fractions"},
    "passes": {"tree_cheapest"},
    "tables": {"tree_span_cells", "tree_span_table"},
}


def run(words, limit):
    """The status, what was said, processor seconds and megabytes of a run; no status where it was given up."""
    with subprocess.Popen([str(word) for word in words], stdout=subprocess.PIPE, stderr=subprocess.DEVNULL) as child:
        signal.signal(signal.SIGALRM, lambda *_: child.kill())
        signal.alarm(int(limit) + 1)
        said = child.stdout.read().decode()
        _, ended, used = os.wait4(child.pid, 0)
        signal.alarm(0)
        child.returncode = os.waitstatus_to_exitcode(ended)
    status = child.returncode if child.returncode >= 0 else None
    return status, said, used.ru_utime + used.ru_stime, used.ru_maxrss / 1024


def fields(said):
    return dict(line.split(" ", 1) for line in said.splitlines() if " " in line)


def solved(program, rules, demand, most, limit):
    """A row of this program on a day, with so many turns, or seconds as `10s`."""
    with tempfile.TemporaryDirectory() as folder:
        proof = pathlib.Path(folder, "proof")
        words = [program, "solve", rules, demand, proof, most]
        begun = time.monotonic()
        status, said, seconds, memory = run(words, limit)
        passed = time.monotonic() - begun
        if status not in (0, 1, 8):
            return None, f"given up after {seconds:.1f} s" if status is None else said.strip()
        stored = proof.read_bytes()
        if most.endswith("s"):
            seconds = passed
        elif run(words, limit)[1] != said or proof.read_bytes() != stored:
            sys.exit(f"{rules}: two runs differ")
        checked, _, checking, _ = run([program, "check", rules, demand, proof], limit)
        if checked != 0:
            sys.exit(f"{rules}: its certificate is refused")
    told = fields(said)
    row = f"{told['cost']} / {told['bound']} | {told['processed']} ({told['failed']}) | {seconds:.2f} s, {memory:.0f} MB"
    return seconds if status != 8 else None, f"{row} | check {checking:.2f} s"


def peer(peers, solver, rules, demand, limit):
    """What a general solver gives on a day, and its seconds where it proved an optimum."""
    words = ["/usr/bin/python3", peers / "solve.py", rules, demand, "--solver", solver, "--limit", limit]
    status, said, seconds, _ = run(words, 3 * limit + 60)
    told = fields(said)
    if status != 0 or "cost" not in told:
        return None, f"{solver}: none after {seconds:.0f} s"
    closed = told["cost"] == told["bound"]
    return seconds if closed else None, f"{solver} {told['cost']} / {told['bound']} {seconds:.2f} s"


def by_part(program, rules, demand, most):
    """The processor seconds of a search by part, from samples: each counts for the crate of its function."""
    with tempfile.TemporaryDirectory() as name:
        folder = pathlib.Path(name)
        shutil.copy(rules, folder / "rules")
        shutil.copy(demand, folder / "demand")
        record = ["perf", "record", "-q", "-e", "cpu-clock", "-F", "199", "-o", "samples"]
        before = os.times().children_user
        subprocess.run([*record, program, "solve", "rules", "demand", "proof", most], cwd=folder,
                       stdout=subprocess.DEVNULL, check=False)
        seconds = os.times().children_user - before
        said = subprocess.run(["perf", "report", "-i", "samples", "--stdio", "-g", "none", "--sort", "symbol"],
                              cwd=folder, capture_output=True, text=True, check=True).stdout
    shares = dict.fromkeys([*PARTS, "the rest"], 0.0)
    for share, function in re.findall(r"^ *([0-9.]+)% +\[\S\] (\S+)", said, re.M):
        crate = function.partition("::")[0]
        part = next((it for it, crates in PARTS.items() if crate in crates), "the rest")
        shares[part] += float(share)
    return ", ".join(f"{part} {share * seconds / 100:.2f}" for part, share in shares.items())


def main():
    words = argparse.ArgumentParser(description=__doc__, formatter_class=argparse.RawDescriptionHelpFormatter)
    words.add_argument("folder", nargs="?", type=pathlib.Path, default=TOP / "examples")
    words.add_argument("days", nargs="*")
    words.add_argument("--turns", type=int, default=200)
    words.add_argument("--seconds", type=int)
    words.add_argument("--limit", type=int, default=60)
    words.add_argument("--program")
    words.add_argument("--peers", type=pathlib.Path)
    words.add_argument("--parts", action="store_true")
    given = words.parse_args()
    program = program_path(given=given.program)
    days = given.days or sorted(it.stem for it in given.folder.glob("*.demand") if it.with_suffix(".rules").exists())
    for day in days:
        rules, demand = given.folder / f"{day}.rules", given.folder / f"{day}.demand"
        most = f"{given.turns}" if given.seconds is None else f"{given.seconds}s"
        seconds, row = solved(program, rules, demand, most, max(given.limit, (given.seconds or 0) + 60))
        if given.peers:
            found = [peer(given.peers, solver, rules, demand, given.limit) for solver in SOLVERS]
            row += "".join(f" | {text}" for _, text in found)
            best = min((it for it, _ in found if it is not None), default=None)
            if seconds is not None and best:
                row += f" | ratio {seconds / best:.2f}"
        if given.parts:
            row += f" | {by_part(program, rules, demand, most)}"
        print(f"{day} | {row}", flush=True)


if __name__ == "__main__":
    main()
