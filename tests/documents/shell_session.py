"""The commands of a document, run one after another as a reader would, in a copy of the repository's top folder."""
import os
import re
import shutil
import subprocess
import sys
import tempfile
from pathlib import Path

from markdown import matches

# A document whose commands have not ended by then is stuck.
SECONDS = 300
MARK = "\001done"
PRELUDE = f"""exec 2>&1
mark() {{ local status=$?; printf '\\n{MARK} %s\\n' "$status"; return $status; }}
"""
# What `check_random` says of itself on standard error where the machine is slow.
PROGRESS = re.compile(r"^check_random [a-z]+: .* so far\n", re.MULTILINE)
# How a block of a language is run.
RUNNERS = {"python": ("py", sys.executable), "javascript": ("mjs", "node")}


class Command:
    """A command of a document: its block, its words, and its output (or None) and status (or None) in the document."""

    def __init__(self, line, words, output=None, status=None):
        self.line, self.words, self.output, self.status = line, words, output, status

    def fault(self, printed, status):
        """What differs from the document, or None."""
        if self.status is not None and status != self.status:
            return f"the status is {status}, and not {self.status}"
        if self.output is not None and not matches(self.output, printed):
            return f"prints\n{textual(printed)}\nand the document has\n{textual(chr(10).join(self.output))}"
        return None


def textual(text):
    return "\n".join(f"    {it}" for it in text.rstrip("\n").split("\n"))


def commands_of(block, at):
    """The commands of a block that is run."""
    if block.language == "console":
        yield from commands_of_console(block)
    elif block.language == "sh":
        for line in block.lines:
            if line.strip() and not line.startswith("#"):
                status = re.search(r"# exit status (\d+)", line)
                yield Command(block.line, line, None, int(status[1]) if status else 0)
    else:
        ending, runner = RUNNERS[block.language]
        prints = re.findall(r"(?:#|//) prints: (.*)$", block.lines[-1])
        (at / f"block_{block.line}.{ending}").write_text(block.text)
        yield Command(block.line, f"{runner} block_{block.line}.{ending}", prints or None, 0)


def commands_of_console(block):
    command = None
    for number, line in enumerate(block.lines, block.line + 1):
        if line.startswith("$ "):
            if command:
                yield command
            command = Command(number, line[2:], [])
        elif line.startswith("> ") and not command.output:
            command.words += f"\n{line[2:]}"
        else:
            command.output.append(line)
    if command:
        yield command


def missing_runner(block):
    """What is needed to run the block, and is not installed, or None."""
    runner = RUNNERS.get(block.language, (None, "bash"))[1]
    return None if shutil.which(runner) else runner


def run(document):
    """Runs all commands of the document, and yields each with what differs, or None."""
    with tempfile.TemporaryDirectory() as name:
        folder = Path(name)
        (folder / "at").mkdir()
        (folder / "tmp").mkdir()
        for it in document.top.iterdir():
            if it.name not in (".git", "out"):
                (folder / "at" / it.name).symlink_to(it)
        commands = []
        for block in document.blocks:
            if block.mark("save"):
                commands.append(Command(block.line, f"cat > {block.mark('save')} << 'SAVED'\n{block.text}SAVED"))
            elif block.is_run and block.language != "history" and not missing_runner(block):
                commands += commands_of(block, folder / "at")
        yield from zip(commands, faults(commands, folder))


def faults(commands, folder):
    """What differs in each of the commands."""
    script = folder / "script"
    script.write_text(PRELUDE + "".join(f"{it.words}\nmark\n" for it in commands))
    environment = {**os.environ, "TMPDIR": str(folder / "tmp"), "PYTHONDONTWRITEBYTECODE": "1",
                   "PYTHONPATH": "clients/python:clients/python/tests"}
    environment.pop("RA_MONITOR", None)
    try:
        ran = subprocess.run(["bash", script], cwd=folder / "at", env=environment, stdin=subprocess.DEVNULL, text=True,
                             stdout=subprocess.PIPE, timeout=SECONDS)
        printed = ran.stdout
    except subprocess.TimeoutExpired as late:
        printed = (late.stdout or b"").decode()
    printed = PROGRESS.sub("", printed.replace(str(folder / "tmp"), "/tmp"))
    parts = re.split(rf"\n{MARK} (\d+)\n", printed)
    for number, command in enumerate(commands):
        if 2 * number + 1 >= len(parts):
            yield f"it did not end within {SECONDS} seconds, or ended the shell"
        else:
            yield command.fault(parts[2 * number], int(parts[2 * number + 1]))
