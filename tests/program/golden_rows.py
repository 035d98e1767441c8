"""The rows of a table of lines, each with the answer to its line (tests/program/golden_lines says in which form)."""

FORMS = "12"


def rows(path):
    """The rows of this file, each with its number, and once for each of its forms."""
    for number, row in enumerate(path.read_text().splitlines(), 1):
        if row and not row.startswith("#"):
            kind, rest = row.split("|", 1)
            line, answer = rest.rsplit("|", 1)
            *form, kind = kind.split()
            for it in form or FORMS:
                yield number, f"RAH {it} {kind}", line[1:-1], answer.strip()


def wanted(answer):
    """What is written, what is said and the status, where one line has this answer."""
    word = answer.split()[0]
    if word == "syntax":
        return b"", b"line 3: syntax\n", 2
    ending, status = {
        "ok": ("end yes 1", 0),
        "joined": ("end yes 0", 0),
        "yes": ("end yes 0", 0),
        "no": (f"end {answer}", 1),
        "refused": ("end yes 0", 3),
    }[word]
    return f"{answer}\n{ending}\n".encode(), b"", status


def text_of(head, line):
    """The text whose third line this is."""
    return f"{head}\nreplicas a b c\n{line}\n".encode()
