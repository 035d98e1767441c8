"""The parts of a Markdown document: its blocks, links, headings, and the paths that it names.

The first word after an opening fence is the block's language. What stands behind it says what the check does with it:

    console                  lines that begin with `$ ` (continued by `> `) are run, and the others are their output;
                             `[...]` matches any part of a line, or alone for any lines
    history                  a history with a reply behind each line, separated by two spaces or more
    LANGUAGE run             the block is run; `# prints: TEXT` in its last line (or `// prints:`) is its output. In
                             `sh` each line is a command, whose status is 0, or what `# exit status N` says
    LANGUAGE save=NAME       the reader saves it under this name, where later commands find it
    LANGUAGE file=PATH       the block is this file
    LANGUAGE part-of=PATH    the block is a part of this file
    LANGUAGE not-run: WHY    nothing is done with it, for this reason
"""
import re
import textwrap
from pathlib import Path
from typing import NamedTuple

ELISION = "[...]"
# Languages whose blocks need a mark: a reader takes them for something that works.
CODE = ("python", "javascript", "js", "mjs", "rust", "json")
FENCE = re.compile(r"^( *)```(.*)$")
LINK = re.compile(r"\[[^\]]*\]\(([^)\s]+)\)")
# A path below one of these folders, up to its last letter.
NAMED_PATH = re.compile(
    r"\b(?:docs|examples|tools|bench|tests|crates|clients)/[A-Za-z_][A-Za-z0-9_./-]*[A-Za-z0-9_]")


class Block(NamedTuple):
    """A fenced block, or one that is indented: its place, language, marks, and lines."""

    line: int
    language: str
    marks: str
    lines: list

    def mark(self, name):
        """The value of a mark such as `save=NAME`, or None."""
        found = re.search(rf"(?:^| ){name}=(\S+)", self.marks)
        return found[1] if found else None

    @property
    def is_run(self):
        return self.language in ("console", "history") and not self.reason or self.marks == "run"

    @property
    def reason(self):
        """Why the block is not run, or None."""
        found = re.match(r"not-run: *(.+)", self.marks)
        return found[1] if found else None

    @property
    def text(self):
        return "".join(f"{it}\n" for it in self.lines)

    def faults(self):
        """What is wrong with the block's marks."""
        known = self.marks in ("", "run") or self.reason or re.fullmatch(r"(save|file|part-of)=\S+", self.marks)
        if not known:
            yield f"this mark is unknown: {self.marks}"
        if self.language in CODE and not self.marks:
            yield f"a block of {self.language} needs a mark: run, save=, file=, part-of= or not-run: WHY"
        if self.language != "console" and not self.reason and any(it.startswith("$ ") for it in self.lines):
            yield "a command with output stands in a block that is not `console`"
        if self.language == "console" and not self.lines[0].startswith("$ "):
            yield "a block of `console` begins with a command"


class Document:
    """A document, with its path from the top of the repository."""

    def __init__(self, top, path, text=None):
        self.top, self.path = top, path
        self.text = (top / path).read_text(encoding="utf-8") if text is None else text
        self.blocks, self.prose = [], []
        self._split()

    def _split(self):
        """Tells blocks from prose."""
        inside, indented = None, []
        for number, line in enumerate([*self.text.split("\n"), ""], 1):
            fence = FENCE.match(line)
            if inside is None and not fence:
                if line.startswith("    ") and (indented or not self.prose[-1:] or not self.prose[-1].strip()):
                    indented.append((number, line[4:]))
                    continue
                self._end_indented(indented)
                self.prose.append(line)
            elif inside is None:
                self._end_indented(indented)
                language, _, marks = fence[2].strip().partition(" ")
                inside = Block(number, language, marks.strip(), [])
            elif fence:
                self.blocks.append(inside._replace(lines=textwrap.dedent("\n".join(inside.lines)).split("\n")))
                inside = None
                self.prose.append("")
            else:
                inside.lines.append(line)

    def _end_indented(self, indented):
        if indented:
            self.blocks.append(Block(indented[0][0], "", "", [line for _, line in indented]))
        indented.clear()

    def anchors(self):
        """The anchors of the headings, as the usual services make them."""
        seen = {}
        for line in self.prose:
            heading = re.match(r"#{1,6} +(.*?) *#*$", line)
            if heading:
                words = re.sub(r"\[([^\]]*)\]\([^)]*\)", r"\1", heading[1]).lower()
                slug = re.sub(r"[^\w\- ]", "", words).replace(" ", "-")
                seen[slug] = seen.get(slug, -1) + 1
                yield slug if not seen[slug] else f"{slug}-{seen[slug]}"

    def links(self):
        """The targets of links and pictures, without those to other sites."""
        prose = re.sub(r"`[^`]*`", "", "\n".join(self.prose))
        return [it for it in LINK.findall(prose) if not re.match(r"[a-z]+:", it)]

    def paths(self):
        """What the document names as files of the repository."""
        return {it.rstrip(".") for it in NAMED_PATH.findall(self.text) if not re.search(r"[A-Z]{2}", Path(it).stem)}


def matches(expected, printed):
    """Is this what was printed, with the elisions filled in?"""
    pattern = ""
    for line in expected:
        if line.strip() == ELISION:
            pattern += r"(?:.*\n)*?"
        else:
            pattern += ".*".join(re.escape(it) for it in line.rstrip().split(ELISION)) + r" *\n"
    lines = [it.rstrip() for it in printed.rstrip("\n").split("\n")] if printed.strip() else []
    return re.fullmatch(pattern, "".join(f"{it}\n" for it in lines)) is not None


def is_quoted(block, source, whole):
    """Is the block the source, or a part of it, whatever the part's indentation is?"""
    lines, of = block.text.strip("\n").split("\n"), source.strip("\n").split("\n")
    if whole:
        return lines == of
    wanted = textwrap.dedent("\n".join(lines))
    fronts = range(len(of) - len(lines) + 1)
    return any(textwrap.dedent("\n".join(of[at : at + len(lines)])) == wanted for at in fronts)
