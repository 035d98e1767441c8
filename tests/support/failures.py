"""The summary of failures that `verify` prints at its end: for each failed part, the lines that show why.

The environment variable GATE_FAILURES names the file that collects it. If it is not set, nothing is stored.
"""
import os
import re
import shlex
from pathlib import Path

# What `rt ci` and the scripts write about a failure, and a count of failures that is not 0.
REPORTING = re.compile(r"FAILED|NOT (PROVED|REFUSED|TRIED)|BAD EDIT|Error\b|: error|run rt fmt|failed with status|[1-9]\d* failed")
# Marks a mutant that the prover rejected, as it has to: its error is no failure.
WANTED = "refused, as it must be"
FIRST = 20
LAST = 15


def excerpt(lines):
    """The first lines that report a failure, and the last lines, each once and in their order."""
    reporting = [place for place, line in enumerate(lines) if REPORTING.search(line) and WANTED not in line][:FIRST]
    last = range(max(0, len(lines) - LAST), len(lines))
    return [lines[place] for place in sorted({*reporting, *last})]


def store(command, status, lines):
    """Stores an excerpt of these lines, which the command wrote, if it ended with another status than 0."""
    file_name = os.environ.get("GATE_FAILURES")
    if status == 0 or not file_name:
        return
    Path(file_name).parent.mkdir(parents=True, exist_ok=True)
    excerpted = [f"-- {shlex.join(command)}: status {status}", *(f"   {line}" for line in excerpt(lines))]
    with Path(file_name).open("a", encoding="utf-8", errors="replace") as file:
        file.write("".join(f"{line}\n" for line in excerpted))
