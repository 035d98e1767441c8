"""docs/reference/rattle: the public types and calls of each product crate."""
import re

from gen_docs.clauses import clause_line
from gen_docs.pages import Missing, closing, is_theorem, opening, product_groups, prose, source_link, wrapped
from gen_docs.surface import Crate

FOLDER = "docs/reference/rattle"
PREFACE = """
The public types and calls of the product crates, from their sources. Most programs need `ra_monitor` (one thread),
`ra_desk` (several threads) or `ra_history_text` (texts) alone.
"""


def shown(item):
    """The declaration without what is private: private fields, ghost parts and comments of the implementation."""
    if item.what == "trait":
        return trait_of(item.declaration)
    if item.what not in ("struct", "enum"):
        return item.declaration
    lines, hidden = [], False
    for line in item.declaration.split("\n"):
        is_member = line.startswith("    ") and not line.startswith("    }")
        is_private = item.what == "struct" and is_member and not re.match(r" +(pub |///)", line)
        if is_private or re.match(r" +(ghost|pub\(|// )", line):
            hidden = True
        else:
            lines.append(line)
    lines = [it for at, it in enumerate(lines) if not (it.strip().startswith("///") and lines[at + 1] == "}")]
    return "\n".join([*lines[:-1], *(["    // private fields"] if hidden else []), *lines[-1:]])


def trait_of(declaration):
    """A trait without its functions, which are entries of their own: its types, and what contracts see of it."""
    head, *members = re.split(r"\n\s*\n|(?<=\{)\n(?= )", declaration.removesuffix("\n}"))
    kept = [it for it in members if not re.search(r"^ *(fn|ghost use) ", it, re.MULTILINE)]
    return head + "\n" + "\n\n".join(kept) + "\n}"


def entry(top, path, item):
    text = f"\n### `{item.call}`\n\n```rust\n{shown(item)}\n```\n"
    text += "\n" + prose(item.documentation) if item.documentation else ""
    if item.clauses:
        text += "\nClauses:\n\n" + "".join(clause_line(it) for it in item.clauses)
    return text + f"\nSource: [`{path.relative_to(top)}`]({source_link(2, top, path)})\n"


def undocumented(top, items):
    for _, path, item in items:
        if not item.documentation and not item.implements and not is_theorem(_):
            yield f"{path.relative_to(top)}:{item.line}: the public item `{item.call}` has no `///`"


def page(top, crate):
    faults = list(undocumented(top, crate.items))
    if faults:
        raise Missing(faults)
    text = opening(crate.name, f"crates/{crate.name}/src") + "\n"
    text += prose(crate.sources[crate.root].module_documentation())
    items = [it for it in crate.items if not is_theorem(it[0])]
    for title, kinds in (("Types and constants", ("struct", "enum", "trait", "type", "const")), ("Calls", ("fn",))):
        parts = "".join(entry(top, path, item) for _, path, item in items if item.what in kinds)
        text += f"\n## {title}\n{parts}" if parts else ""
    if any(is_theorem(module) for module, _, _ in crate.items):
        text += "\n## Theorems\n\nSee [theorems](../../generated/theorems.md#" + crate.name + ").\n"
    if crate.reexports:
        text += "\n## Re-exported items\n\n" + wrapped(", ".join(f"`{it}`" for it in crate.reexports) + ".")
    return text + "\nAll crates: [Rattle API](index.md). " + closing(2).lstrip("\n")


def index(top, crates):
    text = opening("Rattle API", "crates.txt and crates/*/src") + PREFACE
    for title, names in product_groups(top):
        text += f"\n## {title.rstrip('.')}\n\n"
        for name, _ in names:
            text += wrapped(f"[{name}]({name}.md): {crates[name].purpose()}", "- ")
    return text + closing(2)


def pages(top):
    """Each page of this folder, by its path."""
    crates = {name: Crate(top, name) for _, names in product_groups(top) for name, _ in names}
    found = {f"{FOLDER}/index.md": index(top, crates)}
    return found | {f"{FOLDER}/{name}.md": page(top, crate) for name, crate in crates.items()}
