#!/usr/bin/env python3
"""Says what the contracts of both `run` rest on: the definitions that their clauses reach, part by part.

    bench/believed.py            the table of docs/MODEL.md, and whether that page has it
    bench/believed.py PART       the definitions of a part, file by file, as `bench/believed.py solve`

A definition reaches those that its text names, by the imports of its file; a variable of the same name counts too, so
the numbers are at most a little too great. Counted are the definitions of specs/ with
their lines, and the types of src/ that they name; those of the kit's library are left out. It fails where the page
differs, or names in its tables a definition that neither `run` reaches.
"""
import pathlib
import re
import sys

TOP = pathlib.Path(__file__).resolve().parent.parent
PAGE = TOP / "docs" / "MODEL.md"
WORD = re.compile(r"[^\W\d][\w'◌\-]*|◌\S+◌")
IMPORT = re.compile(r"use Rattle\.([\w.]+?)(?:\.\{(.*)\})?(?: as (\w+))?$")
HEAD = re.compile(r"(?:pub |abbrev |data |record |opaque |mutual )*([^\s(:{]+)")
READER = ("command_answers.specs.Reader", "IsReader")
WRITER = ("command_searches.specs.Writer", "IsWriter")
RULES = ("command_answers.specs.RulesCommands", "RulesCommand")
CERT = ("command_answers.specs.Says", "CertCommand")
SOLVE = ("command_searches.specs.SolveAnswers", "SolveAnswers")

# What tells how a search went, and not what it found; that the checker found no cause, and the causes of a no.
HOW = {("command_searches.specs.SolveAnswers", "IsSearched")}
CAUSES = {("check_certificates.specs.certificate_laws.Accepted", "Accepts"), ("command_texts.specs.Check", "SaysNo")}

# The parts of the table: what it says of each, and the definitions that it begins from.
PARTS = {
    "yes": ("what a yes states", [("check_certificates.specs.certificate_laws.Right", "YesIsRight")]),
    "texts": ("what the rules, the demand and the proof text say", [
        ("text_rules.specs.RulesOf", "IsReading"), ("text_demand.specs.InstanceOf", "instance_of"),
        ("text_proof_pieces.specs.CertOf", "proof_of")]),
    "trusted": ("`check`, without the causes of a no", [CERT, ("command_texts.specs.Check", "Judgement"), READER]),
    "check": ("`check`, with each cause of a no", [CERT, ("command_texts.specs.Check", "Judgement"), READER]),
    "explain": ("`explain`", [RULES, ("command_texts.specs.Explain", "DerivationFrom"), READER]),
    "rank": ("`rank`", [RULES, ("command_texts.specs.Days", "RankFrom"), READER]),
    "next": ("`next`", [RULES, ("command_texts.specs.Days", "NextFrom"), READER]),
    "fits": ("`fits`", [RULES, ("command_texts.specs.Days", "FitsFrom"), READER]),
    "value": ("`value`, with each cause", [
        ("command_answers.specs.TextCommands", "TextCommand"), ("command_texts.specs.what_if.Value", "Valuation"), READER]),
    "rest": ("`rest`, with each cause", [
        ("command_answers.specs.TextCommands", "TextCommand"), ("command_texts.specs.what_if.Rest", "Resting"), READER]),
    "relax-rules": ("`relax-rules`", [RULES, ("command_texts.specs.relax.Answers", "RelaxedRules"), READER]),
    "relax-demand": ("`relax-demand`", [
        ("command_texts.specs.relax.DayCommands", "DayCommand"), ("command_texts.specs.relax.Answers", "RelaxedDemand"),
        READER]),
    "reuse": ("`reuse`", [CERT, ("command_searches.specs.Reuse", "Reusing"), READER]),
    "found": ("`solve`, without how it searched", [SOLVE, WRITER]),
    "solve": ("`solve`", [SOLVE, WRITER]),
    "make": ("`make`", [("command_searches.specs.Make", "AnswersMake"), WRITER]),
    "curve": ("`curve`", [
        ("command_searches.specs.CurveAnswers", "CurveAnswers"), ("command_searches.specs.CurveAnswers", "MayStoreDay"),
        ("command_searches.specs.Series", "IsSeriesWriter")]),
    "one": ("that the same texts have one answer", [("command_line.specs.OneAnswer", "HasOneAnswer")]),
    "run": ("all of `run`", [
        ("command_line.specs.Form", "form_of"), ("command_line.specs.Run", "Does"),
        ("command_line.specs.OneAnswer", "HasOneAnswer")]),
    "page": ("all of `run` of the second program", [
        ("page_command.specs.Run", "form_of"), ("page_command.specs.Run", "Does")]),
}


class Module:
    """A file of specs/: what it imports, its definitions by name, and whose constructors and fields stand in it."""

    def __init__(self, path):
        self.imports, self.defined, self.owner = {}, {}, {}
        lines = None
        for line in path.read_text().split("\n"):
            if found := IMPORT.match(line):
                self.add_import(*found.groups())
            elif line.strip() and not line.lstrip().startswith("--") and not line.startswith(("use ", "pub mod ")):
                if not line[0].isspace() and (found := HEAD.match(line)):
                    lines = self.defined.setdefault(found[1], [])
                if lines is not None:
                    lines.append(line)
        for name, lines in self.defined.items():
            if re.match(r"(pub )?data ", lines[0]):
                for line in lines[1:]:
                    if found := re.match(r"\s+(?:pub )?([\w'-]+)\s*:", line):
                        self.owner[found[1]] = name

    def add_import(self, module, names, alias):
        if names is None:
            self.imports[alias or module.rpartition(".")[2]] = (module, None)
            return
        for name in names.split(","):
            name, _, other = name.strip().partition(" as ")
            self.imports[other or name] = (module, name)

    def reached(self, name):
        """What the text of a definition names: pairs of a module, none for this one, and a name."""
        text = "\n".join(self.defined[name])
        for word in set(WORD.findall(text)):
            if word in self.defined or word in self.owner:
                yield None, self.owner.get(word, word)
            elif self.imports.get(word, (None, None))[1]:
                yield self.imports[word]
        for word in [*self.defined, *self.imports]:
            # An operator stands in a text without its places.
            if "◌" in word and any(sign and sign in text for sign in word.split("◌")):
                yield (None, word) if word in self.defined else self.imports[word]
        for alias, word in set(re.findall(r"\b(\w+)\.([\w'-]+)", text)):
            module, whole = self.imports.get(alias, (None, alias))
            if whole is None:
                yield module, word


MODULES = {}


def module_of(name):
    if name not in MODULES:
        crate, _, file = name.partition(".specs.")
        path = TOP / "crates" / crate / "specs" / f"{file.replace('.', '/')}.antt"
        MODULES[name] = Module(path) if path.exists() else None
    return MODULES[name]


def closure(roots, without=frozenset()):
    """The definitions that these reach, with their lines, and the types of src/ that they name."""
    known, types, todo = {}, set(), list(roots)
    while todo:
        name, word = todo.pop()
        if ".specs.declared." in name:
            types.add(name.partition(".TheVariants")[0])
        module = module_of(name)
        if module is None:
            continue
        word = module.owner.get(word, word)
        if (name, word) in known or (name, word) in without or word not in module.defined:
            continue
        known[name, word] = module.defined[word]
        todo += [(other or name, more) for other, more in module.reached(word)]
    return known, types


def part(key):
    return closure(PARTS[key][1], {"found": HOW, "trusted": CAUSES}.get(key, frozenset()))


def table():
    yield "| what | definitions | lines | files | types |"
    yield "|---|---|---|---|---|"
    for key, (words, _) in PARTS.items():
        known, types = part(key)
        lines = sum(map(len, known.values()))
        yield f"| {words} | {len(known)} | {lines} | {len({name for name, _ in known})} | {len(types)} |"


def unreached(page):
    """The definitions that the page's tables name and neither `run` reaches."""
    names = set()
    for known, types in (part("run"), part("page")):
        names |= {(name.rpartition(".")[2], word) for name, word in known}
        names |= {(name.rpartition(".")[0].rpartition(".")[2], name.rpartition(".")[2]) for name in types}
    for row in re.findall(r"^\|.*\|$", page, re.M):
        for file, word in re.findall(r"`(\w+)\.(\w+)`", row.rpartition(" | ")[2]):
            if (file, word) not in names:
                yield f"{file}.{word}"


def main():
    if len(sys.argv) == 2 and sys.argv[1] in PARTS:
        known, types = part(sys.argv[1])
        for name in sorted({name for name, _ in known}):
            print(f"{name}: {' '.join(sorted(word for module, word in known if module == name))}")
        sys.exit(0)
    if len(sys.argv) != 1:
        sys.exit(__doc__)
    page, lines = PAGE.read_text(), "\n".join(table())
    print(lines)
    wrong = [] if lines in page else ["the table differs"]
    if wrong := wrong + [f"no run rests on {name}" for name in unreached(page)]:
        sys.exit("\n".join(["docs/MODEL.md is wrong:", *wrong]))


if __name__ == "__main__":
    main()
