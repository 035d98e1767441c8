"""The page docs/generated/mutants.md: what each mutant does wrong, and what kills it.

A mutant is an .edit file that begins with the lines `# what:` and `# killed by:`. The other rows stand in
tests/documents/other_mutants.txt. Whatever a row names has to exist: the function with the clause, or the test.
"""
import re

from gen_docs.contracts import Contracts
from gen_docs.killed_by import Killers
from gen_docs.other_mutants import SORTS, read_entries

TIERS = (("must-fail", "gate"), ("more-edits", "--all"))
WHAT, KILLED_BY = "# what: ", "# killed by: "
KINDS = ("clause", "postcondition", "precondition", "invariant", "other")


class Mutant:
    """An .edit file: its crate, its name, its tier, and what its first two lines say."""

    def __init__(self, path, tier):
        self.path, self.tier = path, tier
        self.crate, self.name = path.parent.parent.name, path.stem
        self.what, self.killed_by = said_by(path)
        apply(path)


def said_by(path):
    """What the first two lines of an .edit file say. They are the only comments."""
    lines = path.read_text(encoding="utf-8").splitlines()
    for at, front in enumerate((WHAT, KILLED_BY)):
        if len(lines) <= at or not lines[at].startswith(front) or not lines[at][len(front):].strip():
            raise SystemExit(f"{path}: line {at + 1} does not say `{front.strip()}`")
    for at, line in enumerate(lines[2:], 3):
        if line.startswith("#"):
            raise SystemExit(f"{path}: line {at} is one more comment")
    return lines[0][len(WHAT):].strip(), lines[1][len(KILLED_BY):].strip()


def apply(path):
    """Fails unless the edit can be applied: `rt` reads each line by itself, and passes over an edit that it cannot apply."""
    texts, file, old = {}, None, None
    for at, line in enumerate(path.read_text(encoding="utf-8").splitlines(), 1):
        word, _, rest = line.partition(":")
        if word == "file":
            file = path.parent.parent / rest.strip()
            if not file.is_file():
                raise SystemExit(f"{path}: line {at} names no file of the crate")
            texts.setdefault(file, file.read_text(encoding="utf-8"))
        elif word == "old" and file:
            old = rest.removeprefix(" ")
        elif word == "new" and old:
            if texts[file].count(old) != 1:
                raise SystemExit(f"{path}: the text before line {at} is in {file.name} {texts[file].count(old)} times")
            texts[file], old = texts[file].replace(old, rest.removeprefix(" ")), None
        elif line and not line.startswith("#"):
            raise SystemExit(f"{path}: line {at} is no `file:`, no `old:` and no `new:` behind an `old:`")
    if not texts or old:
        raise SystemExit(f"{path}: it has no `new:` line behind its last `old:`")


def mutants_of(top):
    """All mutants, by crate in the order of crates.txt, those of the gate first."""
    found = [Mutant(path, tier) for folder, tier in TIERS for path in sorted(top.glob(f"crates/*/{folder}/*.edit"))]
    order = crates_of(top)
    return sorted(found, key=lambda it: order.index(it.crate))


def crates_of(top):
    lines = (top / "crates.txt").read_text(encoding="utf-8").splitlines()
    return [re.split("[ :]", it)[0] for it in lines if it and not it.startswith("#")]


def only_once(path_of, pairs):
    """Fails if a pair comes twice."""
    seen = set()
    for where, pair in pairs:
        if pair in seen:
            raise SystemExit(f"{path_of(where)}: this is said or named twice: {pair[-1]}")
        seen.add(pair)


def kinds_of(top, mutants):
    """What kills each mutant first: one of KINDS."""
    killers = Killers(top, Contracts(top))
    kinds = {it.path: killers.kind_of(it.path.relative_to(top), it.crate, it.killed_by) for it in mutants}
    for path, kind in kinds.items():
        if kind not in KINDS:
            raise SystemExit(f"{path.relative_to(top)}: line 2 names no contract first")
    return kinds


def totals(mutants, kinds):
    """The table of totals by crate."""
    yield "| Crate | Gate | Only `--all` | " + " | ".join(it.capitalize() for it in KINDS) + " |"
    yield "|---" + "|---:" * (2 + len(KINDS)) + "|"
    crates = list(dict.fromkeys(it.crate for it in mutants))
    for name in [*crates, None]:
        its = [it for it in mutants if name in (it.crate, None)]
        tiers = [sum(it.tier == tier for it in its) for _, tier in TIERS]
        numbers = tiers + [sum(kinds[it.path] == kind for it in its) for kind in KINDS]
        title = f"[{name}](#{name})" if name else "all"
        yield f"| {title} | " + " | ".join(map(str, numbers)) + " |"


def other_totals(entries):
    yield "| Other rows | Number |"
    yield "|---|---:|"
    for sort in SORTS.values():
        yield f"| {sort.counted} | {sum(it.sort is sort for it in entries)} |"


def section(name, mutants, entries):
    """The tables of a crate, or of a subject that is no crate."""
    yield f"## {name}\n"
    if mutants:
        yield "| Mutant | What it does | Killed by | Tier |"
        yield "|---|---|---|---|"
        yield from (f"| `{it.name}` | {cell(it.what)} | {cell(it.killed_by)} | {it.tier} |" for it in mutants)
        yield ""
    for sort in SORTS.values():
        its = [it for it in entries if it.sort is sort]
        if its and sort.heading:
            yield f"{sort.heading}\n\n| {sort.first} | {sort.second} |\n|---|---|"
            yield from (f"| {cell(it.what)} | {cell(it.killed_by)} |" for it in its)
            yield ""


def cell(text):
    return text.replace("|", "\\|")


def page(top):
    """The page. A fault ends the program with the file and the reason."""
    mutants, entries = mutants_of(top), read_entries(top)
    only_once(lambda it: it, [(it.path, (it.crate, "name", it.name)) for it in mutants])
    only_once(lambda it: it, [(it.path, (it.crate, "what", it.what)) for it in mutants])
    kinds = kinds_of(top, mutants)
    preface = (top / "tools" / "lib" / "gen_docs" / "mutants_preface.md").read_text(encoding="utf-8")
    lines = [preface.rstrip("\n"), "", "## Totals", "", *totals(mutants, kinds), "", *other_totals(entries), ""]
    subjects = [*crates_of(top), *(it.subject for it in entries)]
    for name in dict.fromkeys(subjects):
        its = [it for it in mutants if it.crate == name]
        others = [it for it in entries if it.subject == name]
        lines += section(name, its, others) if its or others else ()
    return "\n".join(lines).rstrip("\n") + "\n"
