"""The crates of crates.txt: what each depends on, what it is, and how long its proof takes."""
import os
import re

PARTS = ("src", "specs", "proofs")
# What a crate takes that tools/lib/proof_times does not name: so long, and so much for each 1,000 bytes of its sources.
LEAST_SECONDS, SECONDS_FOR_1000_BYTES = 25.0, 0.25


class Failed(Exception):
    """What cannot be done, in a sentence."""


class Crates:
    """The crates of a tree's crates.txt, each with its line and with the crates of the tree that it depends on."""

    def __init__(self, top):
        self.top, self.lines, self.stands_on = top, {}, {}
        for line in (top / "crates.txt").read_text().splitlines():
            line = " ".join(line.split("#")[0].split())
            if line:
                head, _, libraries = line.partition(":")
                name = head.split()[0]
                self.lines[name], self.stands_on[name] = line, libraries.replace(",", " ").split()
        for libraries in self.stands_on.values():
            libraries[:] = [it for it in libraries if it in self.lines]

    def up_to(self, name):
        """The crate and all that it depends on, lowest first."""
        if name not in self.lines:
            raise Failed(f"crates.txt names no crate {name}")
        found = []
        for library in self.stands_on[name]:
            found += [it for it in self.up_to(library) if it not in found]
        return [*found, name]

    def is_program(self, name):
        return (self.top / "crates" / name / "src" / "main.rt").is_file()

    def files(self, name):
        """Each file of the crate's sources, by its path below the crate's folder."""
        folder = self.top / "crates" / name
        for part in PARTS:
            for at, folders, files in os.walk(folder / part):
                folders.sort()
                yield from (os.path.relpath(os.path.join(at, it), folder) for it in sorted(files))

    def what_it_is(self, name):
        """The first sentence of the crate's first page."""
        for root in ("lib.rt", "main.rt"):
            source = self.top / "crates" / name / "src" / root
            if source.is_file():
                page = re.match(r"(?://!.*\n)+", source.read_text())
                text = " ".join(it[3:].strip() for it in page[0].splitlines()) if page else ""
                return text.split(". ")[0].split("  ")[0].rstrip(".")
        return ""

    def seconds(self):
        """The processor-seconds that each crate takes: by tools/lib/proof_times, or guessed by the length of its
        sources."""
        told = {}
        table = self.top / "tools" / "lib" / "proof_times"
        for line in table.read_text().splitlines() if table.is_file() else []:
            words = line.split("#")[0].split()
            if len(words) == 2:
                told[words[0]] = float(words[1])
        return {name: told.get(name) or self.guess(name) for name in self.lines}

    def guess(self, name):
        sizes = [(self.top / "crates" / name / it).stat().st_size for it in self.files(name)]
        return LEAST_SECONDS + SECONDS_FOR_1000_BYTES * sum(sizes) / 1_000
