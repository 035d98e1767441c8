"""The items of a Rattle source: functions with their contracts, types, constants, and the comments above them."""
import re

from gen_docs.records import parts_of

ITEM = re.compile(r"^(?P<indent> *)(?P<pub>pub(?:\([a-z]+\))? )?"
                  r"(?P<what>fn|struct|enum|trait|const|type|mod|use) (?P<name>\w*)(?P<rest>.*)$")
BLOCK = re.compile(r"^(?:unsafe )?(?:impl|(?:pub )?trait)\b")
OBLIGATION = re.compile(r"^ *ghost (\w+): \{ \(")
CLAUSE = re.compile(r"^ *(requires|ensures)\b *(\w*) *\{")


class Clause:
    """A precondition or postcondition: its word, its name, the sentence above it, its text and its line from 1; and
    where it states a record of clauses, the name and the sentence of each part."""

    def __init__(self, word, name, sentence, text, line, parts=()):
        self.word, self.name, self.sentence, self.text, self.line = word, name, sentence, text, line
        self.parts = list(parts)


class Item:
    """A function, type, constant or module: its `///`, its declaration, and for a function its clauses and its owner
    (the type or trait whose block it stands in)."""

    def __init__(self, what, name, is_public, line):
        self.what, self.name, self.is_public, self.line = what, name, is_public, line
        self.documentation, self.declaration, self.clauses = [], "", []
        self.owner, self.is_of_trait, self.implements, self.is_test = "", False, "", False

    @property
    def call(self):
        return f"{self.owner}::{self.name}" if self.owner else self.name


class Source:
    """The items of one source file, by their order in it."""

    def __init__(self, path):
        self.path = path
        self.lines = path.read_text(encoding="utf-8").splitlines()
        self.items, self.blocks = [], []
        at = 0
        while at < len(self.lines):
            at = self.read_line(at)

    def module_documentation(self):
        """The lines of the `//!` comment, without the marks."""
        return [it[4:] for it in self.lines if it.startswith("//!")]

    def read_line(self, at):
        """Reads what begins at this line; the next line to read."""
        line = self.lines[at]
        if BLOCK.match(line):
            self.blocks = [block_of(self.heading(at))]
        found = ITEM.match(line)
        if line.startswith("}"):
            self.blocks = []
        if not found or found["what"] in ("use", "mod"):
            return at + 1
        indent = len(found["indent"])
        if indent not in (0, 4) or (found["what"] != "fn" and indent):
            return at + 1
        item = Item(found["what"], found["name"], found["pub"] == "pub ", at + 1)
        item.documentation, item.is_test = self.above(at)
        if indent and self.blocks:
            item.owner, item.implements, item.is_of_trait = self.blocks[0]
        self.items.append(item)
        return self.read_function(item, at, indent) if item.what == "fn" else self.read_type(item, at)

    def heading(self, at):
        """The text from this line to the brace that opens its block."""
        text = self.lines[at]
        while "{" not in text:
            at += 1
            text += " " + self.lines[at].strip()
        return text[: text.index("{")]

    def above(self, at):
        """The `///` lines above an item, and whether it is a test."""
        found, is_test = [], False
        while at and re.match(r" *(///|#\[)", self.lines[at - 1]):
            at -= 1
            text = self.lines[at].strip()
            is_test = is_test or text == "#[test]"
            if text.startswith("///"):
                found.insert(0, text[4:])
        return found, is_test

    def read_type(self, item, at):
        """Reads a declaration to its end: the closing brace, or the semicolon. A trait's items are read on."""
        if item.what == "trait":
            self.read_obligations(item, at)
        first = at
        is_block = item.what in ("struct", "enum", "trait") and not self.lines[at].rstrip().endswith(("}", ";"))
        while not (self.lines[at].startswith("}") if is_block else self.lines[at].rstrip().endswith((";", "}"))):
            at += 1
        item.declaration = "\n".join(self.lines[first : at + 1])
        return first + 1 if item.what == "trait" else at + 1

    def read_obligations(self, item, at):
        """Reads what every implementation of a trait proves: its ghost members that begin with a bound variable."""
        while not self.lines[at].startswith("}"):
            found = OBLIGATION.match(self.lines[at])
            if found:
                comment, above = [], at
                while self.lines[above - 1].strip().startswith("//"):
                    above -= 1
                    comment.insert(0, self.lines[above].strip()[3:])
                text = self.lines[at].strip()
                item.clauses.append(Clause("obligation", found[1], " ".join(comment), text, at + 1))
            at += 1

    def read_function(self, item, at, indent):
        """Reads a signature and its clauses; the line of the body."""
        first = at
        while not self.ends_signature(at, indent):
            at += 1
        item.declaration = "\n".join(it[indent:] for it in self.lines[first : at + 1])
        item.declaration = re.sub(r"\s*(\{\}?.*|;)$", "", item.declaration)
        if re.search(r"[{;]\}?$", self.lines[at]):
            return at + 1
        at += 1
        comment = []
        while not re.match(rf" {{{indent}}}\{{", self.lines[at]):
            line = self.lines[at]
            if CLAUSE.match(line):
                at = self.read_clause(item, comment, at)
                if self.lines[at - 1].rstrip().endswith("};"):
                    return at
                comment = []
                continue
            comment = [*comment, line.strip()[3:]] if line.strip().startswith("//") else []
            at += 1
        return at + 1

    def ends_signature(self, at, indent):
        """Is this the last line of a signature: one with a body, or one before clauses or a body?"""
        if re.search(r"(?:\{|\{\}|;|\{ .* \})$", self.lines[at]):
            return True
        rest = at + 1
        while self.lines[rest].strip().startswith("//") or not self.lines[rest].strip():
            rest += 1
        return bool(CLAUSE.match(self.lines[rest]) or re.match(rf" {{{indent}}}\{{", self.lines[rest]))

    def read_clause(self, item, comment, at):
        """Reads a clause to its closing brace; the next line."""
        word, name = CLAUSE.match(self.lines[at]).groups()
        first, depth = at, 0
        while True:
            code = self.lines[at].split("//")[0]
            depth += code.count("{") - code.count("}")
            at += 1
            if not depth:
                break
        text = "\n".join(self.lines[first:at])
        item.clauses.append(Clause(word, name, " ".join(comment), text, first + 1, parts_of(self.path, text)))
        return at


def block_of(heading):
    """The type of a block's functions, the trait that it implements, and whether it declares a trait."""
    heading = re.sub(r"\s+", " ", heading).strip()
    heading = re.sub(r"^(?:unsafe )?impl *", "impl ", heading)
    if heading.startswith("impl <"):
        heading = "impl " + behind_brackets(heading[5:])
    found = re.match(r"(?:pub )?trait (\w+)", heading)
    if found:
        return found[1], "", True
    words = heading[5:].split(" where ")[0]
    implements, _, owner = words.partition(" for ") if " for " in words else ("", "", words)
    name = re.match(r"[\w:]+", owner.strip())
    return (name[0] if name else owner.strip()), implements.strip(), False


def behind_brackets(text):
    """What stands behind the pair of angle brackets with which the text begins."""
    depth = 0
    for at, letter in enumerate(text):
        depth += {"<": 1, ">": -1}.get(letter, 0)
        if not depth:
            return text[at + 1 :].strip()
    return text
