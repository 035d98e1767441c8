"""The small library tests/program/alloc_failures.c, which is loaded into a program, and refuses its growths, or counts
what it asks for."""
import os
import subprocess
import tempfile
from pathlib import Path
from typing import NamedTuple

from program import SECONDS, TOP


def library(folder):
    """The library, which the compiler of the kit makes."""
    kit = Path(subprocess.run(["rt", "doc"], check=True, capture_output=True, text=True).stdout.strip()).parent
    made = Path(folder) / "alloc_failures.so"
    words = [kit / "toolchain" / "bin" / "clang", "-O1", "-shared", "-fPIC", "-nostdlib", "-fuse-ld=lld"]
    subprocess.run([*words, "-o", made, TOP / "tests" / "program" / "alloc_failures.c"], check=True)
    return made


class Asked(NamedTuple):
    """How often memory was asked for, for how many bytes in all, how often a thread left its processor to others, and
    how many reads and writes there were."""

    calls: int
    bytes: int
    yields: int
    reads: int
    writes: int


def asked(made, words, given, seconds=SECONDS):
    """What a run writes, what it says and its status, and what it asked for."""
    heard, told = os.pipe()
    counting = {"LD_PRELOAD": str(made), "COUNTED_TO": str(told)}
    # From a file each read is as long as it can be, so that the numbers are always the same.
    with tempfile.TemporaryFile() as text:
        text.write(given)
        text.seek(0)
        try:
            run = subprocess.run(
                words, stdin=text, capture_output=True, timeout=seconds, env=counting, pass_fds=(told,)
            )
        except subprocess.TimeoutExpired:
            raise ValueError(f"it does not end within {seconds} seconds") from None
        finally:
            os.close(told)
            numbers = os.read(heard, 100).split()
            os.close(heard)
    if len(numbers) != len(Asked._fields):
        raise ValueError(f"it does not tell what it asked for, and ends with status {run.returncode}")
    return (run.stdout, run.stderr, run.returncode), Asked(*map(int, numbers))
