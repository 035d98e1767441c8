"""What is built, and whether it is still what its sources say.

Beside a built program lie two files. NAME.built tells what it was made from: a sum over the sources of all crates that
it depends on, their lines of crates.txt, HANDLES and the kit; and the program's own sum. NAME.fingerprint has what
tools/lib/fingerprint printed when these sums were last compared: where that is unchanged, so are they, and nothing has
to be read.
"""
import hashlib
import os
import shutil
import subprocess
import time
from pathlib import Path

from crates import Crates, Failed


class Target:
    """A program, or the tests of a crate."""

    def __init__(self, top, name, of_tests=False):
        self.top, self.name = top, name
        self.file, self.verb = (f"{name}_tests", "test") if of_tests else (name, "run")
        self.folder = top / "crates" / name / "out"
        self.program = self.folder / self.file
        self.record, self.fingerprint = self.folder / f"{self.file}.built", self.folder / f"{self.file}.fingerprint"

    def facts(self):
        """What NAME.built tells, each line's first word with the rest; nothing where there is none."""
        lines = self.record.read_text().splitlines() if self.record.is_file() else []
        return dict(it.partition(" ")[::2] for it in lines)

    def forget(self):
        for it in (self.record, self.fingerprint):
            if it.exists():
                it.unlink()


def kit():
    """The kit's identity, as `rt version` prints it, or None where there is no rt on the path."""
    rt = shutil.which("rt")
    if not rt:
        return None
    told = Path(rt).resolve().parent.parent / "KIT-ID"
    if told.is_file():
        return told.read_text().strip()
    run = subprocess.run([rt, "version"], stdin=subprocess.DEVNULL, capture_output=True, text=True)
    if run.returncode:
        raise Failed(f"{rt} does not tell its version")
    return run.stdout.strip()


def release(top):
    """The version of this repository. tests/documents/versions compares each other place that states it."""
    return (top / "VERSION").read_text().strip()


def sum_of(path):
    return hashlib.sha256(path.read_bytes()).hexdigest()


def sum_of_sources(crates, name, identity):
    """A sum over all that decides what is built: each file's name and text, and where it ends."""
    found = hashlib.sha256()

    def add(word, text):
        found.update(f"{word} {len(text)}\n".encode())
        found.update(text)

    add("kit", identity.encode())
    handles = crates.top / "HANDLES"
    add("HANDLES", handles.read_bytes() if handles.is_file() else b"")
    for crate in crates.up_to(name):
        add("crate", crates.lines[crate].encode())
        for file in crates.files(crate):
            add(file, (crates.top / "crates" / crate / file).read_bytes())
    return found.hexdigest()


def fingerprint(target, names):
    """What tools/lib/fingerprint prints."""
    words = ["bash", target.top / "tools" / "lib" / "fingerprint", target.program.relative_to(target.top), *names]
    return subprocess.run(words, cwd=target.top, stdin=subprocess.DEVNULL, capture_output=True, text=True).stdout


def write(path, text):
    """Puts a whole file there at once, so that none reads a half."""
    part = path.with_name(f"{path.name}.{os.getpid()}")
    part.write_text(text)
    os.replace(part, path)


def is_built(target, crates):
    """Is the built program what the sources, the lists and the kit say? Where there is no rt, its kit is believed."""
    facts, names = target.facts(), crates.up_to(target.name)
    if not facts or not os.access(target.program, os.X_OK):
        return False
    before = fingerprint(target, names)
    if target.fingerprint.is_file() and target.fingerprint.read_text() == before:
        return True
    sources = sum_of_sources(crates, target.name, kit() or facts.get("kit", ""))
    if facts.get("sources") != sources or facts.get("program") != sum_of(target.program):
        return False
    try:
        write(target.fingerprint, before)
    except OSError:
        # Nobody may write here. So the sums are taken anew each time.
        pass
    return True


def remember(target, crates, sources, identity):
    """Writes down what a new program was made from: sources of this sum, which may have changed since."""
    facts = {
        "program": sum_of(target.program),
        "sources": sources,
        "kit": identity,
        "commit": commit(target.top),
        "date": time.strftime("%Y-%m-%d", time.gmtime()),
    }
    write(target.record, "".join(f"{name} {value}\n" for name, value in facts.items()))
    is_built(target, crates)


def commit(top):
    """The commit that is checked out, and whether something differs from it; or `none`."""
    words = ["git", "-C", top, "describe", "--always", "--dirty", "--abbrev=12", "--exclude=*"]
    try:
        run = subprocess.run(words, stdin=subprocess.DEVNULL, capture_output=True, text=True)
    except OSError:
        return "none"
    return run.stdout.strip() if run.returncode == 0 else "none"


def here(top):
    """The crates of this repository, or a sentence about crates.txt."""
    try:
        return Crates(top)
    except (OSError, ValueError, IndexError) as why:
        raise Failed(f"{top / 'crates.txt'} cannot be read: {why}") from why
