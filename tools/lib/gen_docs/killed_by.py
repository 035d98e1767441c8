"""What can kill a mutant, and whether it exists.

A mutant names places, with `; ` between them: "`CALL`, clause `A`", "`CALL`, clauses `A`, `B` and `C`", "`CALL`,
postcondition" (a clause without a name), "`CALL`, precondition" or "`CALL`, precondition `A`", "`TYPE`, invariant",
"`TYPE`, invariant `A`", "`RECORD`, part `A`" (of an invariant among the definitions), "`TYPE`, contract `A`" (what a
trait asks of it), "`NAME`, definition", "test `A`" (or a text or a script). A place may go on ", on which `CALL` (`A`)
depends".
"""
import os
import re

NAME = r"`(\w+(?:::\w+)*)`"
LIST = r"`\w+`(?:, `\w+`)*(?: and `\w+`)?"
PLACE = re.compile(rf"{NAME}, (clause|clauses|precondition|postcondition|invariant|part|parts|contract|definition)"
                   rf"(?: ({LIST}))?(?:, on which (.*) depends?)?")
ABOVE = re.compile(rf"{NAME}(?: \(({LIST})\))?")
TEST = re.compile(rf"(?:test|text|script)s? ({LIST})")
TEXTS = ("examples/*.rah", "tests/program/*texts/*.rah", "tests/explanations/pages/*.rah")
KIND = {"clauses": "clause", "part": "invariant", "parts": "invariant", "contract": "other", "definition": "other"}


def names_in(text):
    return re.findall(r"`(\w+)`", text or "")


class Killers:
    """Contracts, tests, stored texts and scripts: what can kill a mutant."""

    def __init__(self, top, contracts):
        self.contracts, self.tests = contracts, tests_of(top)

    def kind_of(self, path, crate, text):
        """What sort of contract kills the mutant first, or "test". Fails if something that is named does not exist."""
        kinds = []
        for part in text.split("; "):
            found, test = PLACE.fullmatch(part), TEST.fullmatch(part)
            if not found and not test:
                raise SystemExit(f"{path}: this names no clause and no test: {part}")
            lacking = self.lacking_tests(test[1]) if test else self.lacking(crate, found)
            for name in lacking:
                raise SystemExit(f"{path}: there is no {name}: {part}")
            kinds.append("test" if test else KIND.get(found[2], found[2]))
        return kinds[0]

    def lacking_tests(self, names):
        return [f"test `{it}`" for it in names_in(names) if it not in self.tests]

    def lacking(self, crate, found):
        """What a place names that does not exist."""
        name, word, parts = found[1], found[2], names_in(found[3])
        if word in ("clause", "clauses", "postcondition"):
            known = self.contracts.clauses(crate, name)
            wanted = parts if word != "postcondition" else [""]
        elif word == "precondition":
            known, wanted = self.contracts.preconditions(crate, name), parts or [""]
        else:
            known, wanted = self.facts(crate, name, word), parts or [word]
        yield from (f"{word} `{it}` of `{name}`" for it in wanted if it not in known)
        if word.startswith("clause") and not parts:
            yield f"clause named of `{name}`"
        for above in re.findall(ABOVE, found[4] or ""):
            known = self.contracts.clauses(crate, above[0])
            if not known:
                yield f"function `{above[0]}` with a contract"
            yield from (f"clause `{it}` of `{above[0]}`" for it in names_in(above[1]) if it not in known)

    def facts(self, crate, name, word):
        """The named facts of a type, or of a record or a definition of the crate."""
        known = set(self.contracts.facts.get((crate, name), ()))
        if word in ("part", "parts", "definition") and self.contracts.has_definition(crate, name):
            known |= {"definition"}
            known |= {it for text in self.contracts.definitions.get(crate, ()) if f"record {name} " in text
                      for it in re.findall(r"^ +pub (\w+) :", text.split(f"record {name} ")[1], re.MULTILINE)}
        return known


def tests_of(top):
    """The names of all test functions, of all texts with a stored answer, and of the scripts of tests/ with their
    functions, those of the modules beside them included."""
    sources = "".join(it.read_text(encoding="utf-8") for it in top.glob("crates/*/src/**/*.rt"))
    functions = re.findall(r"#\[test\]\s*\n\s*(?:pub )?fn ([a-z_0-9]+)", sources)
    texts = [it.stem for glob in TEXTS for it in top.glob(glob)]
    files = [it for it in (top / "tests").rglob("*") if it.is_file()]
    scripts = [it for it in files if os.access(it, os.X_OK)]
    read = [it.read_text(encoding="utf-8") for it in {*scripts, *(it for it in files if is_module(it))}]
    runs = [name for text in read for name in re.findall(r"^def (\w+)", text, re.MULTILINE)]
    return {*functions, *texts, *runs, *(it.name for it in scripts)}


def is_module(path):
    return path.suffix == ".py" and path.parent.name != "support"
