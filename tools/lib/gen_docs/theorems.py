"""docs/generated/theorems.md: the theorems and the worked examples, by subject."""
from gen_docs.pages import THEOREM_MODULES, Missing, bullet, closing, groups, opening, source_link, wrapped
from gen_docs.source import Source

# The headings of modules whose names are abbreviations.
NAMES = {"or_set": "OR-Set", "or_sets": "OR-Sets", "rga": "RGA", "rgas": "RGAs"}
PREFACE = """
A theorem is a public function that does nothing: its clauses are the statements. A program or a proof that calls it may
use them. Clauses without a name are not listed by name.
"""


def files(top):
    """The sources of theorems, below the title of their part: those of `theorems`, then those of `worked`."""
    for _, crates in groups(top):
        for name, _ in crates:
            folder = top / "crates" / name / "src"
            for module in THEOREM_MODULES:
                paths = [folder / f"{module}.rt", *sorted((folder / module).rglob("*.rt"))]
                title = name if module == "theorems" else f"{name}: worked examples"
                yield from ((title, it) for it in paths if it.is_file())


def statement(item):
    text = " ".join(" ".join(item.documentation).split())
    return text.removeprefix("Theorem: ").removeprefix("Worked example: ")


def line_of(item):
    names = [f"`{it.name}`" for it in item.clauses if it.name]
    tail = f" Clauses: {', '.join(names)}." if names else ""
    text = statement(item)
    return bullet(f"`{item.name}`: {text[:1].upper()}{text[1:]}{tail}")


def subject(source):
    return " ".join(source.module_documentation()).split(". ")[0].rstrip(".")


def section(top, path, source):
    items = [it for it in source.items if it.what == "fn" and it.is_public]
    if not items:
        return ""
    title = NAMES.get(path.stem, path.stem.replace("_", " ").capitalize())
    text = "" if path.stem in THEOREM_MODULES else f"\n### {title}\n"
    text += "\n" + wrapped(f"{subject(source)} ([source]({source_link(1, top, path)})).")
    return text + "\n" + "".join(line_of(it) for it in items)


def page(top):
    read = [(title, path, Source(path)) for title, path in files(top)]
    faults = [f"{path.relative_to(top)}:{item.line}: the theorem `{item.name}` has no `///`"
              for _, path, source in read for item in source.items if item.what == "fn" and not item.documentation]
    if faults:
        raise Missing(faults)
    count = sum(it.what == "fn" for _, _, source in read for it in source.items)
    text = opening("Theorems", "the modules `theorems` and `worked` of crates/*/src") + PREFACE + "\n"
    text += wrapped(f"There are {count} theorems and worked examples.")
    last = None
    for title, path, source in read:
        part = section(top, path, source)
        text += (f"\n## {title}\n" if part and title != last else "") + part
        last = title if part else last
    return text + closing(1)
