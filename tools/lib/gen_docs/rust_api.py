"""docs/reference/rust_api.md: the public items of clients/rust, from their documentation comments."""
import re

from gen_docs.pages import Missing, closing, opening, prose

SOURCES = "clients/rust/src"
PREFACE = """
Everything that the crate `yehatu` exports. The [Rust client](../../clients/rust/README.md) shows how to use it.
"""
EXPORTS = re.compile(r"^pub use (?:\w+::)*(?:\{([^}]*)\}|(\w+));", re.MULTILINE)
ITEM = re.compile(r"^pub (struct|enum|trait|fn) (\w+)")
IMPLEMENTATION = re.compile(r"^impl(?:<.*?>)? (\w+)(?:<.*>)? \{$")
METHOD = re.compile(r"^    (?:pub )?(?:const )?(?:fn (\w+)|const (\w+)|type (\w+))")
# A link to an item, which has no page here: its text stays.
LINK = re.compile(r"\[(`[^`]+`)\](?:\([^)]*\))?")


def exported(top):
    """The names that the crate exports, in alphabetical order."""
    text = (top / SOURCES / "lib.rs").read_text(encoding="utf-8")
    names = [it.strip() for group, one in EXPORTS.findall(text) for it in (group or one).split(",")]
    return sorted(set(filter(None, names)), key=str.lower)


def comment_above(lines, at):
    """The lines of the documentation comment above a line, behind attributes."""
    found = []
    while at and re.match(r"\s*(///|#\[|//[^/!])", lines[at - 1]):
        at -= 1
        if lines[at].strip().startswith("///"):
            found.insert(0, re.sub(r"^\s*/// ?", "", lines[at]))
    return found


def text_of(comment):
    """The comment as Markdown, without the hidden lines of its examples and without links to items."""
    lines, is_code = [], False
    for line in comment:
        if line.startswith("```"):
            line = "```" if is_code else "```rust"
            is_code = not is_code
        if not (is_code and re.match(r"# |#$", line)):
            lines.append(line if is_code else LINK.sub(r"\1", line))
    parts = re.split(r"(^```rust$.*?^```$)", "\n".join(lines), flags=re.MULTILINE | re.DOTALL)
    return "".join(it if it.startswith("```rust") else prose_of(it) for it in parts)


def prose_of(text):
    """The text with its headings as paragraphs of their own."""
    return re.sub(r"^(\*\*\w+\*\*)$\n+", r"\1\n\n", prose(text.split("\n")), flags=re.MULTILINE) + "\n"


def declaration(lines, at):
    """The lines of a declaration, up to its body or its end, without their common indentation."""
    indent = len(lines[at]) - len(lines[at].lstrip())
    found = []
    for line in lines[at:]:
        found.append(line[indent:])
        if line.rstrip().endswith(("{", ";", "}")):
            break
    text = "\n".join(found).removesuffix("{").rstrip().removesuffix(";")
    # The fields of a tuple are private.
    return re.sub(r"^(pub struct \w+)\(.*\)$", r"\1", text)


def body_end(lines, at):
    """The line behind a block that begins here."""
    while lines[at].rstrip() != "}":
        at += 1
    return at + 1


class Source:
    """A source: its lines, and its items and implementations by their names."""

    def __init__(self, path, place):
        self.lines = path.read_text(encoding="utf-8").split("\n")
        self.place = place

    def items(self):
        for at, line in enumerate(self.lines):
            found = ITEM.match(line)
            if found:
                yield found[1], found[2], at

    def members(self, kind, name, at):
        """The public functions of an item: the line of each, and its name."""
        starts = [at] if kind == "trait" else []
        for number, line in enumerate(self.lines):
            found = IMPLEMENTATION.match(line)
            if kind != "trait" and found and found[1] == name:
                starts.append(number)
        for start in starts:
            for number in range(start + 1, body_end(self.lines, start)):
                line = self.lines[number]
                found = METHOD.match(line)
                is_public = kind == "trait" or line.startswith("    pub fn ")
                if found and is_public:
                    yield number, next(filter(None, found.groups()))


def shown(lines, kind, at):
    """The declaration of an item: with its public fields or its variants, as far as they are public."""
    head = declaration(lines, at)
    if kind == "fn" or kind == "trait" or not lines[at].rstrip().endswith("{"):
        return head
    body = []
    for line in lines[at + 1 : body_end(lines, at) - 1]:
        is_comment = line.strip().startswith("///")
        is_public = kind == "enum" or re.match(r"    pub \w+:", line)
        if is_comment or (is_public and not line.strip().startswith("#[")):
            body.append(line)
    while body and body[-1].strip().startswith("///"):
        body.pop()
    text = LINK.sub(r"\1", "\n".join(body))
    return f"{head} {{\n{text}\n}}" if any(not it.strip().startswith("///") for it in body) else head


def entry(source, kind, name, at, faults):
    comment = comment_above(source.lines, at)
    if not comment:
        faults.append(f"{source.place}:{at + 1}: the public item `{name}` has no comment")
    text = f"\n## `{name}`\n\n```rust\n{shown(source.lines, kind, at)}\n```\n\n{text_of(comment).strip()}\n"
    for number, member in source.members(kind, name, at):
        comment = comment_above(source.lines, number)
        if not comment:
            faults.append(f"{source.place}:{number + 1}: `{name}::{member}` has no comment")
        text += f"\n### `{name}::{member}`\n\n```rust\n{declaration(source.lines, number)}\n```\n\n"
        text += f"{text_of(comment).strip()}\n"
    return text


def page(top):
    faults, found = [], {}
    names = exported(top)
    for path in sorted((top / SOURCES).rglob("*.rs")):
        source = Source(path, path.relative_to(top))
        for kind, name, at in source.items():
            if name in names:
                found[name] = entry(source, kind, name, at, faults)
    faults += [f"{SOURCES}: the exported name `{it}` is declared nowhere" for it in names if it not in found]
    if faults:
        raise Missing(faults)
    return opening("Rust API", SOURCES) + PREFACE + "".join(found[it] for it in names) + closing(1)
