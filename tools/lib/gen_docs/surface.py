"""What a crate shows to its users: the items that its lib.rt makes public, or all public ones of a program."""
import re

from gen_docs.source import Source

MODULE = re.compile(r"^(pub )?mod (\w+);", re.MULTILINE)
USE = re.compile(r"^(?:pub )use ([\w:]+?)(?:::\{([^}]*)\})?;", re.MULTILINE)


class Crate:
    """A crate: its sources, and its public items by module."""

    def __init__(self, top, name):
        self.name, self.folder = name, top / "crates" / name
        source = self.folder / "src"
        self.root = source / "lib.rt" if (source / "lib.rt").is_file() else source / "main.rt"
        self.sources = {it: Source(it) for it in sorted(source.rglob("*.rt"))}
        self.reexports = []
        self.items = list(dict.fromkeys(self.public_of(self.root, source, "")))

    def purpose(self):
        """The first sentence of the crate's page: of lib.rt, else of main.rt."""
        text = " ".join(self.sources[self.root].module_documentation()).split("  ")[0]
        return text.split(". ")[0].rstrip(".") + "."

    def public_of(self, path, folder, module):
        """The public items of a module, each with its path, and those of its public modules."""
        text = path.read_text(encoding="utf-8")
        for item in self.sources[path].items:
            if module and is_public(item):
                yield module, path, item
        modules = dict((name, bool(pub)) for pub, name in MODULE.findall(text))
        for name, named in USE.findall(text):
            yield from self.used(folder, module, modules, name, [it.strip() for it in named.split(",") if it.strip()])
        for name, is_open in modules.items():
            if is_open or self.root.name == "main.rt":
                inner = f"{module}::{name}" if module else name
                yield from self.public_of(file_of(folder, name), folder / name, inner)

    def used(self, folder, module, modules, name, named):
        """The items that a `pub use` names, with the functions of their types."""
        head, *rest = name.split("::")
        head, rest = (rest[0], rest[1:]) if head == "crate" else (head, rest)
        if head not in modules:
            self.reexports += [f"{name}::{it}" for it in named] or [name]
            return
        names = named or rest[-1:]
        path = file_of(folder, head)
        for source in [*self.files_of(path, folder / head), *self.sources]:
            for item in self.sources[source].items:
                is_here = source == path or folder / head in source.parents
                if is_public(item) and (item.owner in names or (is_here and not item.owner and item.name in names)):
                    yield module, source, item

    def files_of(self, path, folder):
        """The file of a module and those of the modules in its folder."""
        return [it for it in self.sources if it == path or folder in it.parents]


def file_of(folder, name):
    return folder / f"{name}.rt"


def is_public(item):
    """Is it a public item, a function of a trait, or one that a trait's implementation gives further clauses?"""
    return (item.is_public or item.is_of_trait or (item.implements and item.clauses)) and not item.is_test
