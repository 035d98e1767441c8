"""The names that stand in the sources of the repository, for the scripts that compare documents with them."""
import os
import re

from program import TOP

WORD = r"[A-Za-z_][A-Za-z0-9_]*"


def crates():
    """The names of the crates, in the order of crates.txt."""
    lines = (TOP / "crates.txt").read_text(encoding="utf-8").splitlines()
    return [re.split("[ :]", it)[0] for it in lines if it and not it.startswith("#")]


def words_of_sources():
    """Each word that stands in a source, a definition, a script or crates.txt."""
    words = set(re.findall(WORD, (TOP / "crates.txt").read_text(encoding="utf-8")))
    for folder in ("crates", "tests", "tools", "clients", "bench"):
        for at, folders, files in os.walk(TOP / folder):
            folders[:] = [it for it in folders if it not in ("out", "target", "__pycache__", "node_modules")]
            for name in files:
                if not name.endswith((".md", ".edit")):
                    with open(os.path.join(at, name), encoding="utf-8", errors="replace") as source:
                        words.update(re.findall(WORD, source.read()))
    return words


def sources():
    """The text of each source of a crate."""
    for path in sorted((TOP / "crates").glob("*/src/**/*.rt")):
        yield path.read_text(encoding="utf-8")


def has_item(owner, item):
    """Is there a type or a trait of this name, with a variant, a field or a function of that name in the same source?"""
    is_owner = re.compile(rf"\b(?:enum|struct|trait|type|impl(?:<.*?>)?(?: .* for)?) {re.escape(owner)}\b")
    is_item = re.compile(rf"(?:\bfn |^ +(?:pub )?){re.escape(item)}\b", re.MULTILINE)
    return any(is_owner.search(it) and is_item.search(it) for it in sources())


def faults_of_name(name, words):
    """What is wrong with a name in backticks: a word that stands nowhere, or an item that its owner does not have."""
    yield from (f"no source has such a name: {it}" for it in re.findall(WORD, name) if it not in words)
    for owner, item in re.findall(rf"({WORD})::({WORD})", name):
        if owner[0].isupper() and not has_item(owner, item):
            yield f"{owner} has no {item}"


def file_of(path, *folders):
    """The file or folder of this path, below the top, crates/ or one of the folders, with or without its ending."""
    for folder in (TOP, TOP / "crates", *folders):
        for ending in ("", ".antt", ".rt"):
            if (folder / f"{path}{ending}").exists():
                return folder / f"{path}{ending}"
    return None
