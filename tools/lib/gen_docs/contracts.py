"""The contracts in the sources of the crates, as far as a mutant can name what kills it."""
import re

from gen_docs.records import parts_of

FUNCTION = re.compile(r"^ *(?:pub(?:\(crate\))? )?(?:const )?fn (\w+)")
CLAUSE = re.compile(r"\b(requires|ensures) *(\w*) *\{")
OWNER = re.compile(r"^(?:pub(?:\(crate\))? )?(impl|trait|struct|enum)\b(?:<.*?>)? ?(.*)")
GHOST = re.compile(r"^ *ghost (\w+)(:| =) \{")


class Contract:
    """The names of a function's preconditions and of its postconditions; that of a clause without a name is empty."""

    def __init__(self):
        self.requires, self.ensures = set(), set()


class Contracts:
    """The contracts of all crates: by crate and name of a function, with and without its type or trait; and the named
    facts (invariants, contracts of a trait) of each type."""

    def __init__(self, top):
        self.functions, self.facts, self.definitions = {}, {}, {}
        for path in sorted((top / "crates").glob("*/src/**/*.rt")):
            self.read(path, path.relative_to(top / "crates").parts[0])
        for path in sorted((top / "crates").glob("*/specs/**/*.antt")):
            crate = path.relative_to(top / "crates").parts[0]
            self.definitions.setdefault(crate, []).append(path.read_text(encoding="utf-8"))

    def read(self, path, crate):
        owner, contract = "", None
        for line in path.read_text(encoding="utf-8").splitlines():
            block, ghost = OWNER.match(line), GHOST.match(line)
            if block or line.startswith("}"):
                owner = owner_of(block[2]) if block else ""
            if ghost:
                self.facts.setdefault((crate, owner), set()).add(ghost[1])
            contract = self.read_function(crate, owner, contract, line)
            if contract and CLAUSE.search(line):
                contract.ensures.update(name for name, _ in parts_of(path, line))

    def read_function(self, crate, owner, contract, line):
        """The contract to which the clauses of the next lines belong: none in a body."""
        function = FUNCTION.match(line)
        if function:
            contract = Contract()
            for name in {function[1], f"{owner}::{function[1]}" if owner else function[1]}:
                self.functions.setdefault((crate, name), []).append(contract)
        for word, name in CLAUSE.findall(line.split("//")[0]) if contract else ():
            getattr(contract, word).add(name)
        # A body begins at a brace of its own, or at the end of a heading without clauses.
        return None if line.strip() == "{" or (function and line.endswith(" {")) else contract

    def of(self, crate, name):
        """The contracts of a function of the crate, or of all crates where this one has none of that name."""
        if (crate, name) in self.functions:
            return self.functions[crate, name]
        return [it for (_, other), its in self.functions.items() if other == name for it in its]

    def clauses(self, crate, name):
        return {it for contract in self.of(crate, name) for it in contract.ensures}

    def preconditions(self, crate, name):
        return {it for contract in self.of(crate, name) for it in contract.requires}

    def has_definition(self, crate, name):
        """Is there a word of this name in the definitions of the crate, or of any?"""
        texts = self.definitions.get(crate) or []
        return any(re.search(rf"\b{re.escape(name)}\b", it) for it in [*texts, *sum(self.definitions.values(), [])])


def owner_of(heading):
    """The type or trait of a block: of `impl Journal for Monitor {` it is `Monitor`."""
    name = re.match(r"(?:\w+::)*(\w+)", heading.split("{")[0].split(" for ")[-1])
    return name[1] if name else ""
