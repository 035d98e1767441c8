"""A small repository of crates, with the tools of this one and a tool beside them that only pretends to prove."""
import os
import shutil
import subprocess
import tempfile
import time
from pathlib import Path

from assertions import require
from case_registry import print_forgotten

TOP = Path(__file__).resolve().parents[2]
# The program that checks, the one that has the bench too, and the one that explains.
PROGRAM = "ra_check_cli"
WHOLE = "ra_monitor_cli"
EXPLAINS = "ra_explain_cli"
CRATES = f"""\
# NAME: what it depends on
low:
left: low
right: low
{PROGRAM}: left right
bench: left
{WHOLE}: bench right
{EXPLAINS}: left right
other: low
"""
KIT = "kit of one name"
RELEASE = (TOP / "VERSION").read_text().strip()
ALL = ["left", "low", PROGRAM, "right"]
OF_THE_BENCH = ["bench", WHOLE]
# A run that has not ended by then is stuck: many times what the longest one takes on a machine that is busy.
SECONDS = 300
# A user without any rights, where the tests have all of them.
NOBODY = ["setpriv", "--reuid=65534", "--regid=65534", "--clear-groups"]


class FakeRepository:
    """The repository in a folder of its own, with its tool in another one."""

    def __init__(self, folder, name="repository"):
        self.folder, self.top, self.kit = Path(folder), Path(folder) / name, Path(folder) / "kit"
        self.told, self.started = self.folder / "told", []
        self.top.mkdir()
        shutil.copytree(TOP / "tools", self.top / "tools", ignore=shutil.ignore_patterns("__pycache__"))
        for name in ("ra_monitor", "VERSION"):
            shutil.copy2(TOP / name, self.top / name)
        (self.top / "HANDLES").write_text("Handles allowed: none.\n")
        (self.top / "crates.txt").write_text(CRATES)
        (self.top / "tools" / "lib" / "proof_times").write_text("low 20 # of one job\nleft 30\n")
        (self.top / ".gitignore").write_text("out/\n")
        for name in ("low", "left", "right", "bench", "other"):
            self.write(f"crates/{name}/src/lib.rt", f"//! The crate {name}.\n")
        self.write("crates/low/proofs/Laws.antt", "a law\n")
        self.write(f"crates/{PROGRAM}/src/main.rt", "first text")
        self.write(f"crates/{WHOLE}/src/main.rt", "whole text")
        self.write(f"crates/{EXPLAINS}/src/main.rt", "explaining text")
        self.git("init", "-q")
        self.commit("a repository")
        self.make_kit()

    def make_kit(self):
        (self.kit / "bin").mkdir(parents=True)
        shutil.copy2(TOP / "tests" / "build" / "stub_rt", self.kit / "bin" / "rt")
        (self.kit / "KIT-ID").write_text(f"{KIT}\n")
        (self.folder / "bin").mkdir()
        (self.folder / "bin" / "rt").symlink_to(self.kit / "bin" / "rt")

    def write(self, path, text):
        (self.top / path).parent.mkdir(parents=True, exist_ok=True)
        (self.top / path).write_text(text)

    def git(self, *words):
        who = ["-c", "user.name=nobody", "-c", "user.email=nobody@example.org"]
        run = subprocess.run(["git", "-C", self.top, *who, *words], capture_output=True, text=True)
        require(run.returncode == 0, run.stderr)
        return run.stdout

    def commit(self, text):
        self.git("add", "-A")
        self.git("commit", "-q", "-m", text)

    def environment(self, **more):
        """What each run is given: a path that begins with this repository's tool."""
        whole = {**os.environ, "PATH": f"{self.folder / 'bin'}:{os.environ['PATH']}", "RT_TOLD": str(self.told), **more}
        return {key: value for key, value in whole.items() if value is not None}

    def start(self, *words, at="ra_monitor", env=None, **how):
        """Starts a program of the repository; without words, the first command."""
        pipes = {"stdin": subprocess.PIPE, "stdout": subprocess.PIPE, "stderr": subprocess.PIPE, "text": True}
        whole = [*how.pop("before", []), self.top / at, *words]
        run = subprocess.Popen(whole, env=env or self.environment(), **{"cwd": self.folder, **pipes, **how})
        self.started.append(run)
        return run

    def end(self):
        """Ends what is still at work, so that the folder can be removed."""
        self.release()
        self.slow(0)
        for run in self.started:
            run.kill()
            run.wait()
        wait_until(lambda: not self.provers())

    def provers(self):
        """What still runs of the repository's tool."""
        found = []
        for it in Path("/proc").glob("[0-9]*/cmdline"):
            try:
                if str(self.folder / "bin" / "rt").encode() in it.read_bytes():
                    found.append(it.parent.name)
            except OSError:
                pass
        return found

    def run(self, *words, given="given\n", **how):
        """What it wrote, what it said, and its status."""
        run = self.start(*words, **how)
        try:
            wrote, said = run.communicate(given, timeout=SECONDS)
        finally:
            run.kill()
        return Ran(wrote, said, run.returncode)

    def slow(self, seconds):
        """How long each proof takes from now on."""
        Path(f"{self.told}.seconds").write_text(str(seconds))

    def hold(self, *crates):
        """Has the proofs of these crates, and of no others, wait from now on until they are released."""
        Path(f"{self.told}.held").write_text(" ".join(crates))

    def release(self):
        self.hold()

    def is_at_work_on(self, *crates):
        """Has the proof of each of these begun?"""
        return self.has_told(*(f"begin {it}" for it in crates))

    def has_told(self, *words):
        told = self.told.read_text() if self.told.exists() else ""
        return all(f"{it} " in told for it in words)

    def runs(self):
        """What the tool worked on since this was last asked: for each proof the words that it told, begun and ended."""
        lines = self.told.read_text().splitlines() if self.told.exists() else []
        self.told.write_text("")
        self.told.chmod(0o666)
        return [it.split() for it in lines]

    def proved(self):
        """The crates that were worked on since this was last asked."""
        return [it[1] for it in self.runs() if it[0] == "begin"]

    def left_behind(self):
        """What is left of rooms."""
        return [it for it in (self.top / ".git" / "rooms", self.top / "out" / "rooms") if it.exists()]


class Ran:
    """How a run ended."""

    def __init__(self, wrote, said, status):
        self.wrote, self.said, self.status = wrote, said, status

    def answers(self, text, words="check"):
        """Did the program run, made of this text, and was it given these words and its input?"""
        return (self.wrote, self.status) == (f"{text}, told {words}\ngiven\n", 3)

    def refuses(self, *words):
        """Was this a refusal in a few sentences that have these words, with status 2?"""
        plain = "Traceback" not in self.said and "File \"" not in self.said
        return self.status == 2 and not self.wrote and plain and all(it in self.said for it in words)

    def __repr__(self):
        return f"status {self.status}, wrote {self.wrote!r}, said {self.said!r}"


def unprivileged():
    """The words that take all rights from a command, which writes everywhere otherwise."""
    return NOBODY if os.geteuid() == 0 else []


def wait_until(is_so):
    """Waits until this is so."""
    late = time.monotonic() + SECONDS
    while not is_so():
        require(time.monotonic() < late, "it never comes")
        time.sleep(0.01)


CHECKS = []


def check(it):
    """Has a function be one of the checks, in a repository of its own."""
    CHECKS.append(it)
    return it


def built(repository, text="first text"):
    """Has the program built."""
    ran = repository.run("check")
    require(ran.answers(text), ran)
    return repository.proved()


def is_built_again(repository, crates, text="first text"):
    """Is just this proved again, and is the program made anew, of this text? And is all left alone from then on?"""
    ran = repository.run("check")
    require(ran.answers(text), ran)
    proved = sorted(repository.proved())
    require(proved == sorted(crates), proved)
    require(repository.run("check").answers(text))
    require(repository.proved() == [])


def is_left_alone(repository):
    is_built_again(repository, [])


def fault_of(check, repository):
    """Why the check fails, or None. What it started has ended then."""
    try:
        check(repository)
    except (AssertionError, OSError, subprocess.TimeoutExpired) as why:
        return why
    finally:
        repository.end()
    return None


def run_checks(name, wanted, paths):
    """Runs all checks of these scripts, or those that are wanted, and tells how many passed."""
    checks, failed = [it for it in CHECKS if not wanted or it.__name__ in wanted], 0
    forgotten = print_forgotten(*paths)
    for check in checks:
        with tempfile.TemporaryDirectory(prefix="repository ") as folder:
            os.chmod(folder, 0o755)
            why = fault_of(check, FakeRepository(folder))
        if why:
            failed += 1
            print(f"{check.__name__}: {type(why).__name__} {why}")
    print(f"{name}: {len(checks) - failed} passed, {failed + forgotten} failed")
    return 0 if checks and not failed + forgotten else 1
