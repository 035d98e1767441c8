"""docs/generated/clauses.md: each clause of each public call, with the sentence above it."""
from gen_docs.pages import Missing, bullet, closing, is_theorem, opening, product_groups, source_link, wrapped
from gen_docs.surface import Crate

PREFACE = """
Each public call of the product crates, with the clauses that the kit proves of it. The sentence is the comment above
the clause in the source; the clause itself decides. Theorems stand in [theorems.md](theorems.md).

- A line that begins with *requires* is a precondition; all others are postconditions.
- An *obligation* is what every implementation of a trait proves.
- Beside these clauses, each call is safe and total: no undefined behavior, no arithmetic overflow, and each call
  returns, except those that may wait ([assurance case](../explanation/assurance_case.md)).
- A clause holds for each kind, unless it names kinds.
- What a clause says of the bytes of a reader or a writer holds where contracts know them, as for those over memory.
"""


def calls(crate):
    """The calls of the crate, each with its path: no theorems."""
    for module, path, item in crate.items:
        if item.what == "fn" and not is_theorem(module):
            yield path, item


def clause_line(clause):
    """A clause as an item of a list."""
    name = f"`{clause.name}`" if clause.name else ""
    words = {"requires": "*requires*", "obligation": "*obligation*", "ensures": ""}[clause.word]
    front = " ".join(it for it in (words, name) if it)
    first = bullet(f"{front}: {clause.sentence}" if front else clause.sentence)
    return first + "".join(wrapped(f"`{name}`: {sentence}", "  - ", "    ") for name, sentence in clause.parts)


def missing_sentences(top, crate):
    for path, item in calls(crate):
        for clause in item.clauses:
            if not clause.sentence:
                place = f"{path.relative_to(top)}:{clause.line}"
                yield f"{place}: the clause {clause.name or '(unnamed)'} of `{item.call}` has no sentence above it"


def section(top, crate):
    """The calls of a crate that have clauses, each with its clauses."""
    listed = [(path, item) for path, item in calls(crate) if item.clauses]
    listed += [(path, item) for _, path, item in crate.items if item.what == "trait" and item.clauses]
    if not listed:
        return ""
    text = f"\n## {crate.name}\n"
    for path, item in listed:
        text += f"\n### [`{item.call}`]({source_link(1, top, path)})\n\n"
        text += "".join(clause_line(it) for it in item.clauses)
    return text


def page(top):
    crates = [Crate(top, name) for _, names in product_groups(top) for name, _ in names]
    faults = [it for crate in crates for it in missing_sentences(top, crate)]
    if faults:
        raise Missing(faults)
    listed = [item for crate in crates for _, item in calls(crate)]
    count = sum(max(1, len(clause.parts)) for it in listed for clause in it.clauses)
    text = opening("Clauses", "the comments above the clauses of crates/*/src") + PREFACE + "\n"
    text += wrapped(f"{len(listed)} public calls have {count} clauses.")
    return text + "".join(section(top, it) for it in crates) + closing(1)
