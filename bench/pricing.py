#!/usr/bin/env python3
"""Times the pricing of all trees of a day on the graph of all parses, as ratios of one run.

On a call centre's day of 96 periods (examples/g3.rules with windows four times as wide) a pass over the
graph against a fill of the table; the fill against one in plain Rust (bench/fill.rs by `rustc -O`) in the form
that the program had before, at most 0.7 times which is asked; and the pass against the pass in plain Rust
(bench/pricing.rs by `rustc -O`) in four forms: on 128-bit sums in the order of the arcs, which the program had
before, on 64-bit sums in that order, on 64-bit sums with the arcs that make a node side by side, at most 1.2
times which is asked, and on 128-bit sums in that way. On a day of 80 periods that is cut in every way
(examples/g5.rules, 85,400 arcs) the building of the graph against one pass over it, and against one in the
form before, at most 12 of which are asked; and a pass with prices on the arcs of 10, 100 and 1,000 cuts
against one with none on arcs. On the first day again, a pass with wide prices against one with narrow
prices, and against the first form in plain Rust: at most 0.7 of that is asked. The words are rules texts, if
any, on which the fill is timed too; `--before PROGRAM` before them names an earlier build of the program,
against which the fill, the passes and the building, in its passes, are timed once more. The program is crates/bench_runs, as `rt run` builds it there; the time of
a run that does the thing once is taken off. Sums that are printed for the same prices must agree.
"""
import os
import pathlib
import subprocess
import sys
import tempfile

from explain import longer

TOP = pathlib.Path(__file__).resolve().parent.parent
PROGRAM = TOP / "crates" / "bench_runs" / "out" / "bench_runs"
TURNS = 8
# rule costs times this are wide prices
WIDE = 2**48
FORMS = {
    "old": "128-bit sums, by arcs",
    "order": "64-bit sums, by arcs",
    "rows": "64-bit sums, by nodes",
    "wide": "128-bit sums, by nodes",
}


def seconds(words, given):
    with open(given) as text, subprocess.Popen(words, stdin=text, stdout=subprocess.PIPE) as run:
        answer = run.stdout.read().decode()
        _, status, used = os.wait4(run.pid, 0)
        run.returncode = status
    return used.ru_utime, answer


def least(jobs):
    """For each job (words, what is read, how often, more words) the least time of doing it once more, and
    what was printed. The jobs take turns, so that a slow moment of the machine meets them all."""
    took, said = {}, {}
    for _ in range(TURNS):
        for name, (words, given, times, *more) in jobs.items():
            for count in (1, times + 1):
                once, said[name] = seconds([*words, str(count), *map(str, more)], given)
                took[name, count] = min(took.get((name, count), once), once)
    return {
        name: ((took[name, times + 1] - took[name, 1]) / times, said[name].strip())
        for name, (_, _, times, *_) in jobs.items()
    }


def compiled(folder, name):
    """The program in plain Rust, built."""
    built = folder / name
    source = TOP / "bench" / f"{name}.rs"
    subprocess.run(["rustc", "--edition", "2024", "-O", "-o", built, source], check=True)
    return built


def same(answers, *names):
    """The one sum that these printed."""
    sums = {answers[name][1] for name in names}
    if len(sums) != 1:
        sys.exit(f"the sums differ: {sums}")
    return sums.pop()


def fills(rules, other):
    """Prints the time of a fill, and of one in plain Rust in the form before."""
    answers = least({"fill": ([PROGRAM, "fill"], rules, 60), "before": ([other, rules], os.devnull, 60)})
    same(answers, "fill", "before")
    fill, before = (answers[name][0] for name in ("fill", "before"))
    print(f"{pathlib.Path(rules).stem}: fill {1e6 * fill:.0f} us, in plain Rust, as it was {1e6 * before:.0f}, ratio {fill / before:.2f}")


def links(folder, rules):
    """The graph of a rules text as lines, for the plain program."""
    text = folder / "links"
    text.write_text(seconds([PROGRAM, "links"], rules)[1])
    return text


def long_day(folder, rules, plain):
    """Prints the times of passes over the graph of a long day."""
    graph = links(folder, rules)
    jobs = {form: ([plain, graph], rules, 500, form) for form in FORMS}
    jobs["pass"] = ([PROGRAM, "cheapest"], rules, 500)
    answers = least(jobs)
    same(answers, *jobs)
    passed = answers["pass"][0]
    print(f"96 periods, {len(graph.read_text().splitlines())} arcs: pass {1e6 * passed:.0f} us")
    for form, name in FORMS.items():
        rust = answers[form][0]
        print(f"pass in plain Rust, {name}: {1e6 * rust:.0f} us, ratio {passed / rust:.2f}")
    answers = least({
        "narrow": ([PROGRAM, "mults"], rules, 500, 0, 1),
        "wide": ([PROGRAM, "mults"], rules, 500, 0, WIDE),
        "old": ([plain, graph], rules, 500, "old"),
        "fill": ([PROGRAM, "fill"], rules, 60),
    })
    if int(answers["wide"][1]) != WIDE * int(answers["narrow"][1]):
        sys.exit(f"the sums differ: {answers['narrow'][1]} and {answers['wide'][1]}")
    narrow, wide, old, fill = (answers[name][0] for name in ("narrow", "wide", "old", "fill"))
    print(f"wide pass: {1e6 * wide:.0f} us, ratio to a narrow one {wide / narrow:.2f}, to what it was {wide / old:.2f}; narrow pass to a fill {narrow / fill:.3f}")


def short_day(folder, rules, plain):
    """Prints the times of building the graph of a day with many arcs, and of passes with prices on arcs."""
    jobs = {count: ([PROGRAM, "mults"], rules, 1000, count, 1) for count in (0, 10, 100, 1000)}
    jobs["build"] = ([PROGRAM, "build"], rules, 15)
    jobs["old"] = ([plain, links(folder, rules)], rules, 300, "old")
    answers = least(jobs)
    (build, arcs), once, old = answers["build"], answers[0][0], answers["old"][0]
    print(f"{arcs} arcs: build {1e3 * build:.1f} ms, pass {1e3 * once:.2f} ms, ratio {build / once:.0f}, to the pass that it was {build / old:.1f}")
    for count in (10, 100, 1000):
        paid = answers[count][0]
        print(f"pass with prices on {count} arcs: {1e3 * paid:.2f} ms, ratio {paid / once:.2f}")


def against(before, long, short):
    """Prints the times of the fill, the passes and the building against those of an earlier program."""
    answers = least({
        "fill": ([PROGRAM, "fill"], long, 60),
        "fill before": ([before, "fill"], long, 60),
        "pass": ([PROGRAM, "cheapest"], long, 500),
        "wide": ([PROGRAM, "mults"], long, 500, 0, WIDE),
        "pass before": ([before, "cheapest"], long, 500),
        "build": ([PROGRAM, "build"], short, 15),
        "pass of the short day before": ([before, "cheapest"], short, 300),
    })
    same(answers, "fill", "fill before")
    same(answers, "pass", "pass before")
    took = {name: took for name, (took, _) in answers.items()}
    print(f"against {before}: fill {took['fill'] / took['fill before']:.2f}, pass {took['pass'] / took['pass before']:.2f}, "
          f"wide pass {took['wide'] / took['pass before']:.2f}, building {took['build'] / took['pass of the short day before']:.1f} passes")


def main():
    before = None
    words = sys.argv[1:]
    if words[:1] == ["--before"]:
        before, words = pathlib.Path(words[1]).resolve(), words[2:]
    if not PROGRAM.exists():
        sys.exit("run `rt run` in crates/bench_runs: it builds the program")
    with tempfile.TemporaryDirectory() as name:
        folder = pathlib.Path(name)
        long = folder / "long.rules"
        long.write_text(longer((TOP / "examples" / "g3.rules").read_text()))
        short = folder / "short.rules"
        short.write_text((TOP / "examples" / "g5.rules").read_text().replace("periods 96", "periods 80"))
        plain, other = compiled(folder, "pricing"), compiled(folder, "fill")
        for rules in [long, *words]:
            fills(rules, other)
        long_day(folder, long, plain)
        short_day(folder, short, plain)
        if before:
            against(before, long, short)


if __name__ == "__main__":
    main()
