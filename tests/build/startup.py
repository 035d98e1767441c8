"""Shows how `./ra_monitor` starts the built program: what it says while it builds it, and what later starts cost."""
import shutil
import subprocess
import time

from assertions import require
from fake_repository import ALL, PROGRAM, SECONDS, built, check

# The programs that may be run by a start, each in a script that counts how often it is.
COUNTED = ("awk", "basename", "cat", "cut", "date", "dirname", "find", "git", "grep", "head", "ls", "md5sum", "python3")
COUNTED += ("readlink", "realpath", "sed", "sh", "sha256sum", "sleep", "sort", "stat", "tail", "tr", "wc", "xargs")
COUNTING = """#!/bin/sh
echo {name} >> "{started}"
exec {program} "$@"
"""
# What runs the programs that a start needs: two that follow links, and one that looks at all files.
LIKE_IT = """#!/usr/bin/env bash
one=$(readlink -f "{front}")
other=$(readlink -f "{front}")
all=$(find -L "{crates}" -printf '%p %y %s %T@ %C@ %i\\n')
exec "{program}" "$@"
"""
# A start may take so many times what that takes; one of so many turns has to.
TIMES, TURNS = 4, 20


@check
def it_is_built_and_says_how_far_it_is(repository):
    ran = repository.run("check")
    require(ran.answers("first text"), ran)
    lines = ran.said.splitlines()
    require(lines[0].startswith(f"building {PROGRAM}: 4 crates to prove, about "), lines)
    require("proving low: The crate low" in lines)
    counts = [it.split(": ")[1] for it in lines if it.startswith("proved ")]
    require([it.split(", ")[0] for it in counts] == [f"{n} of 4 crates" for n in (1, 2, 3, 4)], counts)
    require(all(it.endswith(" left") for it in counts[:-1]), counts)
    require(sorted(repository.proved()) == ALL)
    require(not repository.left_behind())


@check
def once_built_it_starts_at_once(repository):
    """Without rt, and without python."""
    built(repository)
    for name in ("rt", "python3"):
        (repository.folder / "bin" / name).unlink(missing_ok=True)
        repository.write(f"../bin/{name}", "#!/bin/sh\necho a slow start >&2\nexit 9\n")
        (repository.folder / "bin" / name).chmod(0o755)
    (repository.folder / "bin" / "rt").unlink()
    (repository.folder / "bin" / "rt").symlink_to(repository.kit / "bin" / "rt")
    ran = repository.run("check")
    require(ran.answers("first text") and not ran.said, ran)


@check
def its_start_runs_three_programs_at_most(repository):
    """Whatever there is to look at. The program that stands in for the built one runs a fourth one, `cat`."""
    built(repository)
    started, programs = repository.folder / "started", repository.folder / "programs"
    programs.mkdir()
    for name in ("env", "bash"):
        (programs / name).symlink_to(shutil.which(name))
    for name in COUNTED:
        (programs / name).write_text(COUNTING.format(name=name, started=started, program=shutil.which(name)))
        (programs / name).chmod(0o755)
    for count in (0, 200):
        for number in range(count):
            repository.write(f"crates/low/specs/More{number}.antt", "a definition\n")
        repository.run("check")
        started.write_text("")
        ran = repository.run("check", env=repository.environment(PATH=f"{programs}:{repository.folder / 'bin'}"))
        require(ran.answers("first text") and not ran.said, count, ran)
        require(len(started.read_text().split()) <= 4, count, started.read_text())


@check
def its_start_takes_no_more_than_what_it_runs(repository):
    """At most four times as much as a script that runs the same programs and nothing else, in one of some turns."""
    built(repository)
    program, front = repository.top / "crates" / PROGRAM / "out" / PROGRAM, repository.top / "ra_monitor"
    like = repository.folder / "like"
    like.write_text(LIKE_IT.format(front=front, crates=repository.top / "crates", program=program))
    like.chmod(0o755)
    took = {like: [], front: []}
    for _ in range(TURNS):
        for words, found in took.items():
            found.append(seconds_of_a_start([words, "check"], repository))
        if min(took[front]) <= TIMES * min(took[like]):
            return
    raise AssertionError("slow", took)


def seconds_of_a_start(words, repository):
    began = time.monotonic()
    subprocess.run(words, env=repository.environment(), stdin=subprocess.DEVNULL, stdout=subprocess.DEVNULL,
                   timeout=SECONDS)
    return time.monotonic() - began
