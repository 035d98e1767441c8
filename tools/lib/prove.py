"""Has crates proved side by side, each in a room of its own.

`rt` keeps all others out of a crate's folder, and out of those of the crates below, for as long as it works. So crates
that depend on one crate would wait for one another. Each is therefore proved in a room: a folder with the sources of
this crate and of those below it, as they were when all began, and with the libraries that were built of these. The
files of sources and libraries are the same ones everywhere (hard links), since `rt` puts new ones in place of those
that it changes. Libraries hold statements alone (tools/lib/build_interfaces). For the next build they are kept in the
crates' `out/`, beside those of `rt`: that one may build over a library only what was built with it.
"""
import fcntl
import os
import shutil
import signal
import subprocess
from contextlib import contextmanager
from pathlib import Path

from crates import PARTS, Crates

# Where rt looks in a crate's out/ for the library with its stamp, and where it is kept for the next build.
LIBRARY, KEPT = "rlib", "statements"
# What proves a library.
BUILD_INTERFACES = Path(__file__).resolve().parent / "build_interfaces"
# What would change how rt builds.
NOT_PASSED_ON = ("RT_ALLOW_C", "RT_BACKEND", "RT_SECONDS", "RT_JOBS")
# How much later the proofs of crates come to their turn that none waits for.
NICE = 3


def link(source, to):
    """The same file at another place, or a copy where the two places cannot have the same."""
    try:
        os.link(source, to)
    except OSError:
        shutil.copy2(source, to)


def put(source, to):
    """Puts a folder there, in place of what was there."""
    shutil.rmtree(to, ignore_errors=True)
    if source.is_dir():
        shutil.copytree(source, to, copy_function=link)


@contextmanager
def kept_from_others(folder):
    """Keeps any rt out of a crate's folder for a moment; gives False where one is at work there, or no folder is."""
    if not folder.is_dir():
        yield False
        return
    held = os.open(folder, os.O_RDONLY)
    try:
        yield not is_taken(held)
    finally:
        os.close(held)


def is_taken(held):
    """Takes the lock of a folder, or tells that another one has it."""
    try:
        fcntl.flock(held, fcntl.LOCK_EX | fcntl.LOCK_NB)
    except BlockingIOError:
        return True
    except OSError:
        # Some file systems have no locks, and rt then goes on as well.
        pass
    return False


def place(top):
    """Where rooms are made: below .git, where no rt looks for sources, or below out/."""
    git = top / ".git"
    return git / "rooms" if git.is_dir() and os.access(git, os.W_OK) else top / "out" / "rooms"


class Rooms:
    """The rooms of one build, and the runs of rt in them."""

    def __init__(self, crates, target):
        self.target, self.top, self.folder = target, crates.top, place(crates.top)
        self.logs = crates.top / "out" / "build"
        shutil.rmtree(self.folder, ignore_errors=True)
        # All is read once. What changes from now on belongs to the next build.
        self.taken = self.folder / "sources"
        names = crates.up_to(target.name)
        for name in names:
            for part in PARTS:
                source = self.top / "crates" / name / part
                if source.is_dir():
                    shutil.copytree(source, self.taken / "crates" / name / part)
        (self.taken / "crates.txt").write_text("".join(f"{crates.lines[it]}\n" for it in names))
        if (self.top / "HANDLES").is_file():
            shutil.copyfile(self.top / "HANDLES", self.taken / "HANDLES")
        self.crates, self.runs = Crates(self.taken), {}

    def crate(self, name, of=None):
        """The folder of a crate in its own room, or in that of another one."""
        return self.folder / "rooms" / (of or name) / "crates" / name

    def furnish(self, name):
        """Makes the crate's room."""
        names = self.crates.up_to(name)
        room = self.folder / "rooms" / name
        for it in names:
            for part in PARTS:
                put(self.taken / "crates" / it / part, room / "crates" / it / part)
        (room / "crates.txt").write_text("".join(f"{self.crates.lines[it]}\n" for it in names))
        for it in names[:-1]:
            put(self.crate(it) / "out" / LIBRARY, self.crate(it, name) / "out" / LIBRARY)
        own = self.top / "crates" / name
        with kept_from_others(own) as alone:
            if alone:
                put(own / "out" / KEPT, self.crate(name) / "out" / LIBRARY)

    def begin(self, name, verb, jobs, urgent):
        """Has the crate proved in its room, and returns at once."""
        self.furnish(name)
        words = [BUILD_INTERFACES, str(jobs)] if verb == "lib" else ["rt", verb, "--jobs", str(jobs)]
        words = words if urgent else ["nice", "-n", str(NICE), *words]
        passed_on = {key: value for key, value in os.environ.items() if key not in NOT_PASSED_ON}
        how = {"cwd": self.crate(name), "env": passed_on, "stdin": subprocess.DEVNULL, "start_new_session": True}
        with self.log(name).open("w") as log:
            self.runs[name] = subprocess.Popen(words, stdout=log, stderr=log, **how)

    def log(self, name):
        return self.logs / f"{name}.log"

    def ended(self):
        """Waits until a run has ended, and returns its crate and its status."""
        os.waitid(os.P_ALL, 0, os.WEXITED | os.WNOWAIT)
        for name, run in self.runs.items():
            if run.poll() is not None:
                del self.runs[name]
                return name, run.returncode
        return None, 0

    def give_back(self, name):
        """Keeps the library that its room has with the crate, unless an rt is at work there."""
        own, made = self.top / "crates" / name, self.crate(name) / "out" / LIBRARY
        # The stamp is written last: without it a library is a half.
        if (made / "stamp").is_file():
            with kept_from_others(own) as alone:
                if alone:
                    put(made, own / "out" / KEPT)

    def give_program(self):
        """Puts the program where it belongs, with the stamp by which rt knows it."""
        made, to = self.crate(self.target.name) / "out", self.target.folder
        to.mkdir(parents=True, exist_ok=True)
        for file in (self.target.file, f"{self.target.file}.stamp"):
            if (made / file).is_file():
                shutil.copy2(made / file, to / f"{file}.new")
                os.replace(to / f"{file}.new", to / file)

    def has_program(self):
        return (self.crate(self.target.name) / "out" / self.target.file).is_file()

    def close(self):
        """Ends what still runs, keeps what it had done, and removes the rooms."""
        for run in self.runs.values():
            stop(run)
        for name in self.runs:
            self.give_back(name)
        self.runs = {}
        shutil.rmtree(self.folder, ignore_errors=True)


def stop(run):
    """Ends a run with all that it started: rt's provers end when it does."""
    for how in (signal.SIGTERM, signal.SIGKILL):
        try:
            os.killpg(run.pid, how)
            run.wait(timeout=5)
        except (ProcessLookupError, subprocess.TimeoutExpired):
            continue
