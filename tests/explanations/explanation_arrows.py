"""What a picture shows of a certificate: which of its rows the claims order, as arrows and in letters.

The claims are the program's own, once they are judged (explanation_certificates.py).
"""
from collections import namedtuple

from explanation_certificates import LINKS

# The head of the column in letters, and how many spaces stand behind its longest cell at least.
HEAD, GAP = "is before", 2
# An arrow from one row to another, by their numbers from 0, and the claim that it shows.
Arrow = namedtuple("Arrow", "source target claim")


def named_labels(claims):
    """The labels that the claims name: of each the one that comes first and the one whose line shows it; then the
    others."""
    first = [label for it in claims for label in (it["before"], it["label"]) if label is not None]
    return [*first, *(label for it in claims for label in it["after"])]


def rows_of_lines(picture):
    """Of each line of the text that has a row the number of the row."""
    lines = {getattr(row, "head", ""): number for number, row in enumerate(picture.rows)}
    return {head: number for head, number in lines.items() if head.startswith("line ")}


def arrows_of(picture):
    """An arrow for each two labels that a claim orders, where both have a row."""
    rows = rows_of_lines(picture)
    found = []
    for claim in picture.claims:
        heads = [f"line {picture.case.line_of(it)}" for it in (claim["before"], *claim["after"]) if it is not None]
        if claim["because"] in LINKS and heads[0] in rows:
            found += [Arrow(rows[heads[0]], rows[it], claim) for it in heads[1:] if it in rows]
    return found


def says(case, arrow, label):
    """What the drawing says of an arrow to this label."""
    claim = arrow.claim
    other = " or another one" if len(claim["after"]) > 1 else ""
    front = f"line {case.line_of(claim['before'])} must come before line {case.line_of(label)}{other}"
    return f"{front}: line {claim['line']} shows it"


def cell_of(picture, row):
    """In letters: the lines that a claim orders behind that of the row."""
    case = picture.case
    for claim in picture.claims:
        if claim["because"] in LINKS and row.head == f"line {case.line_of(claim['before'])}":
            first, *others = (f"line {case.line_of(it)}" for it in claim["after"])
            more = others if len(others) < 2 else [f"{len(others)} more"]
            return " or ".join([first, *more])
    return ""


def width_of_cells(picture):
    """How wide the column is; 0 if no row has a cell."""
    cells = [cell_of(picture, row) for row in picture.rows if not isinstance(row, int)]
    return max(map(len, [*cells, HEAD])) + GAP if any(cells) else 0
