"""The rows of tests/documents/other_mutants.txt: mutants that are no .edit file."""
import re
import sys

from gen_docs.contracts import Contracts
from gen_docs.killed_by import Killers

FILE = "tests/documents/other_mutants.txt"
ENTRY = re.compile(r"(\w+): (.*)")


class Sort:
    """A sort of rows: the heading and the columns of its table, and how the totals name it."""

    def __init__(self, counted, heading, first="Bug", second="Caught by"):
        self.counted, self.heading, self.first, self.second = counted, heading, first, second


SORTS = {
    "test": Sort("bugs that no contract can catch, each with its test", "Bugs that only a test can catch:"),
    "definition": Sort("changed definitions, each with the theorem that becomes false", "Changed definitions:",
                       "Definition and change", "Theorem or worked example"),
    "hand": Sort("bugs planted once by hand, each with the contract that killed it",
                 "Bugs planted once by hand, of which no file is kept:", second="Killed by"),
    "script": Sort("bugs of scripts and tools", "Bugs of scripts, of tools, and of what stands in for a program:"),
    "client": Sort("bugs of the clients", "Each bug was planted in both clients, whose"
                   " tests have the same names (`tests/clients/client_suites`):"),
    "plant": Sort("lines of `rt plant` that may stay", "Lines of `rt plant` that may stay:", "Line", "Why"),
    "left": Sort("bugs that nothing catches, each with the reason", "Bugs that nothing catches:", second="Why"),
    "note": Sort("remarks", "Remarks:", "On", "Remark"),
}


class Entry:
    """A row: its subject (a crate, or another heading), its sort, what is wrong, and what catches it."""

    def __init__(self, subject, sort, what):
        self.subject, self.sort, self.what, self.killed_by = subject, sort, what, ""


def read_entries(top):
    """All rows, checked."""
    entries = list(parsed(top))
    seen, check = set(), Check(top)
    for entry in entries:
        if not entry.killed_by:
            raise SystemExit(f"{FILE}: nothing catches this: {entry.what}")
        if (entry.subject, entry.what) in seen:
            raise SystemExit(f"{FILE}: this row stands twice: {entry.what}")
        seen.add((entry.subject, entry.what))
        check.entry(entry)
    return entries


def parsed(top):
    subject, entry, last = None, None, None
    for number, line in enumerate((top / FILE).read_text(encoding="utf-8").splitlines(), 1):
        found = ENTRY.fullmatch(line)
        if line.startswith("## "):
            subject = line[3:]
        elif found and found[1] in SORTS:
            entry, last = Entry(subject, SORTS[found[1]], found[2]), "what"
            yield entry
        elif found and found[1] == "by" and entry and last == "what":
            entry.killed_by, last = found[2], "killed_by"
        elif line.startswith("  ") and last:
            setattr(entry, last, f"{getattr(entry, last)} {line.strip()}")
        elif line and not line.startswith("#"):
            raise SystemExit(f"{FILE}, line {number}: this is no row: {line}")


class Check:
    """Whether what the rows name exists."""

    def __init__(self, top):
        sys.path.insert(0, str(top / "tests" / "clients"))
        import client_test_names
        clients = top / "clients"
        self.normalized = client_test_names.normalized
        self.of_clients = [{name for _, name in client_test_names.python_tests(clients)},
                           {self.normalized(name) for _, name in client_test_names.javascript_tests(clients)}]
        self.contracts = Contracts(top)
        self.killers = Killers(top, self.contracts)
        self.crates = {it.name for it in (top / "crates").iterdir()}

    def entry(self, entry):
        name = next(key for key, it in SORTS.items() if it is entry.sort)
        checks = {"test": self.tests, "script": self.tests, "hand": self.hand, "definition": self.definition,
                  "client": self.client}
        for fault in checks.get(name, lambda _: ())(entry):
            raise SystemExit(f"{FILE}, {entry.subject}: {fault}: {entry.what}")
        if name in ("test", "hand", "definition") and entry.subject not in self.crates:
            raise SystemExit(f"{FILE}: {entry.subject} is no crate")

    def tests(self, entry):
        if self.killers.kind_of(FILE, entry.subject, entry.killed_by) != "test":
            yield "this names no test"

    def hand(self, entry):
        if self.killers.kind_of(FILE, entry.subject, entry.killed_by) == "test":
            yield "this names no contract"

    def definition(self, entry):
        """The words before colons are definitions, and those that catch it are theorems or worked examples."""
        for names in re.findall(r"((?:`\w+`(?:, )?)+):", entry.what):
            for name in re.findall(r"`(\w+)`", names):
                if not self.contracts.has_definition(entry.subject, name):
                    yield f"there is no definition `{name}`"
        for name in re.findall(r"`(\w+)`", entry.killed_by):
            if not self.contracts.of(entry.subject, name):
                yield f"there is no theorem `{name}`"

    def client(self, entry):
        names = re.findall(r'"([^"]+)"', entry.killed_by)
        for name in names:
            if not all(self.normalized(name) in it for it in self.of_clients):
                yield f'there is no test "{name}" in both clients'
        if not names:
            yield "this names no test"
