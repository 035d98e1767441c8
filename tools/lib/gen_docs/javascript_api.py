"""docs/reference/javascript_api.md: the exported names of clients/javascript, from the declarations and their JSDoc."""
import re

from gen_docs.pages import Missing, closing, opening

DECLARATIONS = "clients/javascript/index.d.ts"
YJS_DECLARATIONS = "clients/javascript/yjs/index.d.ts"
PREFACE = """
Everything that the module `yehatu` exports. The [JavaScript client](../../clients/javascript/README.md) shows how to
use it.
"""
YJS_PREFACE = """
## The module `yehatu/yjs`

Everything that it exports. [Instrument a library](../howto/instrument_a_library.md#yjs) shows how to use it.
"""
EXPORT = re.compile(r"^export (?:declare )?(interface|class|type|function) (\w+)")
# The constructor is described by its class, and these members by their names.
OWN_DESCRIPTION = ("constructor",)


def comment_above(lines, at):
    """The JSDoc that ends on the line above, without its marks."""
    end = at
    if not at or not lines[at - 1].rstrip().endswith("*/"):
        return ""
    while not lines[at - 1].strip().startswith("/**"):
        at -= 1
    text = "\n".join(it.strip() for it in lines[at - 1 : end])
    text = re.sub(r"^/\*\* ?|\s*\*/$", "", text)
    return "\n".join(re.sub(r"^\* ?", "", it) for it in text.split("\n")).strip()


def without_comments(lines):
    text = re.sub(r"^ *//.*\n|^ */\*\*[\s\S]*?\*/\n", "", "\n".join(lines) + "\n", flags=re.MULTILINE)
    return text.rstrip("\n").split("\n")


def end_of(lines, at, is_block):
    """The line behind a declaration that begins here."""
    while not (lines[at].startswith("}") if is_block else lines[at].endswith(";")):
        at += 1
    return at + 1


class Declaration:
    """An exported name: its kind, its JSDoc, its lines, and the line where it stands."""

    def __init__(self, lines, at, found):
        self.kind, self.name, self.line = found[1], found[2], at + 1
        is_block = self.kind in ("interface", "class") and not lines[at].endswith("}")
        end = at + 1 if lines[at].endswith("}") else end_of(lines, at, is_block)
        self.lines, self.comment = lines[at:end], comment_above(lines, at)

    def members(self):
        """The members of a class or an interface: the name, the JSDoc, the declaration and the line of each."""
        at = 1
        while self.kind in ("interface", "class") and at < len(self.lines) - 1:
            found = re.match(r"  (?:readonly |get )*(\w+)", self.lines[at])
            if not found:
                at += 1
                continue
            end = end_of(self.lines, at, False)
            text = "\n".join(it[2:] for it in self.lines[at:end])
            yield found[1], comment_above(self.lines, at), text, self.line + at
            at = end


def declarations(path):
    lines = path.read_text(encoding="utf-8").splitlines()
    for at, line in enumerate(lines):
        found = EXPORT.match(line)
        if found:
            yield Declaration(lines, at, found)


def missing(path, it):
    if not it.comment:
        yield f"{path}:{it.line}: the exported name `{it.name}` has no JSDoc"
    for name, comment, _, line in it.members():
        if not comment and name not in OWN_DESCRIPTION:
            yield f"{path}:{line}: `{it.name}.{name}` has no JSDoc"


def entry(it):
    """A declaration, with its members if it is a class; an interface shows its members in the block."""
    if it.kind != "class":
        shown = it.lines if it.kind == "interface" else without_comments(it.lines)
        block = "\n".join(line.removeprefix("export ") for line in shown)
        return f"\n## `{it.name}`\n\n```ts\n{block}\n```\n\n{it.comment}\n"
    heading = without_comments(it.lines)[0].removeprefix("export ").removesuffix("{}").removesuffix("{").strip()
    made = [text for name, _, text, _ in it.members() if name == "constructor"]
    text = f"\n## `{it.name}`\n\n```ts\n" + "\n".join([heading, *made]) + f"\n```\n\n{it.comment}\n"
    for name, comment, declaration, _ in it.members():
        if name != "constructor":
            text += f"\n### `{it.name}.{name}`\n\n```ts\n{declaration}\n```\n\n{comment}\n"
    return text


def page(top):
    modules = {path: list(declarations(top / path)) for path in (DECLARATIONS, YJS_DECLARATIONS)}
    faults = [fault for path, found in modules.items() for it in found for fault in missing(path, it)]
    if faults:
        raise Missing(faults)
    text, yjs = ("".join(entry(it) for it in found) for found in modules.values())
    return opening("JavaScript API", DECLARATIONS) + PREFACE + text + YJS_PREFACE + yjs + closing(1)
