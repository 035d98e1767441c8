"""docs/generated/crates.md: each crate with its purpose, what it depends on, its contract, and its size."""
import re

from gen_docs.clauses import calls
from gen_docs.pages import NO_PRODUCT, Missing, bullet, closing, first_sentence, groups, opening, wrapped
from gen_docs.surface import Crate

PREFACE = """
The crates by layer, the lowest layer first, as crates.txt lists them. A crate depends on those above it in this list,
and on crates of the kit, which are marked.
"""
FIGURES = """
## Figures

Code is the lines of `src` without comments, contracts and blank lines; specs and proofs are lines of `.antt` files.
Tests are test functions. Calls and clauses are the public ones of the product crates ([clauses](clauses.md)). Mutants
are those of `must-fail/`, which the gate tries, and of `more-edits/`.

| Crate | Code | Specs | Proofs | Tests | Calls | Clauses | Mutants |
|---|--:|--:|--:|--:|--:|--:|--:|
"""


def parts_of(page):
    """The text before the first heading of a crate's page, and that of its contract."""
    text = page.read_text(encoding="utf-8")
    purpose = re.search(r"^# .*\n+([\s\S]*?)\n(?:\n|## )", text)
    contract = re.search(r"^## Contract\n+([\s\S]*?)(?:\n\n|\n## )", text, re.MULTILINE)
    return (purpose and purpose[1]) or "", (contract and contract[1]) or ""


def lines_of_code(crate):
    """The lines of the sources that are neither blank, nor comments, nor contracts."""
    lines = 0
    for source in crate.sources.values():
        contracts = sum(it.text.count("\n") + 1 for item in source.items for it in item.clauses)
        code = [it for it in source.lines if it.strip() and not it.strip().startswith(("//", "ghost "))]
        lines += len(code) - contracts
    return lines


def lines_of(folder):
    paths = folder.rglob("*.antt")
    return sum(1 for it in paths for line in it.read_text(encoding="utf-8").splitlines() if line.strip())


def figures(crate, is_product):
    tests = sum(item.is_test for source in crate.sources.values() for item in source.items)
    public = [item for _, item in calls(crate)]
    mutants = [len(list((crate.folder / it).glob("*.edit"))) for it in ("must-fail", "more-edits")]
    row = [lines_of_code(crate), lines_of(crate.folder / "specs"), lines_of(crate.folder / "proofs"), tests,
           *([len(public), sum(len(it.clauses) for it in public)] if is_product else ["", ""]),
           f"{mutants[0]} + {mutants[1]}"]
    return f"| `{crate.name}` | " + " | ".join(str(it) for it in row) + " |\n"


def section(top, name, libraries, is_product, known):
    page = top / "crates" / name / "README.md"
    purpose, contract = parts_of(page)
    if not purpose or not contract:
        raise Missing([f"{page.relative_to(top)}: the page needs a first paragraph and a part `## Contract`"])
    links = [f"`{it}`" + ("" if it in known else " (kit)") for it in libraries]
    text = f"\n### [{name}](../../crates/{name}/README.md)\n\n" + wrapped(first_sentence(purpose)) + "\n"
    text += bullet("Depends on: " + (", ".join(links) or "nothing"))
    text += bullet("Contract: " + first_sentence(contract))
    if is_product:
        text += bullet(f"Calls: [reference](../reference/rattle/{name}.md)")
    return text


def page(top):
    found = groups(top)
    known = {name for _, crates in found for name, _ in crates}
    text = opening("Crates", "crates.txt, the crates' pages and their sources") + PREFACE
    for title, crates in found:
        text += f"\n## {title.rstrip('.')}\n"
        for name, libraries in crates:
            text += section(top, name, libraries, NO_PRODUCT not in title, known)
    text += FIGURES
    for title, crates in found:
        text += "".join(figures(Crate(top, name), NO_PRODUCT not in title) for name, _ in crates)
    return text + closing(1)
