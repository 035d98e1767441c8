"""The built program, run thousands of times: it is started directly, on files in memory.

It is the one that checks; with the word `--whole` on a script's command line the one that has the bench too.
"""
import os
import signal
import subprocess
import sys
from pathlib import Path

TOP = Path(__file__).resolve().parents[2]
CHECK, WHOLE, EXPLAIN = (
    TOP / "crates" / name / "out" / name for name in ("ra_check_cli", "ra_monitor_cli", "ra_explain_cli")
)
# Where Debian's packages of Node.js are.
NODE_PACKAGES = Path("/usr/share/nodejs")
PROGRAM = WHOLE if "--whole" in sys.argv else CHECK
# A run that has not ended by then is stuck, and is ended: many times what the longest one takes on a busy machine.
SECONDS = 120


def build(*words):
    """Has the program built, or what these words of tools/build name, where it is missing or old."""
    words = [TOP / "tools" / "build", *(words or [PROGRAM.name])]
    subprocess.run(words, check=True, stdin=subprocess.DEVNULL, stdout=sys.stderr)


def chosen():
    """The path of the program that RA_MONITOR names, or else of the built one."""
    if "RA_MONITOR" not in os.environ:
        build()
    return os.environ.get("RA_MONITOR", str(PROGRAM))


class Watch:
    """Ends the run in progress once its time is over, whichever `Program` started it. There is one for the module: a
    process has one alarm, and one handler for it."""

    def __init__(self):
        # The process that runs, or None.
        self.running = None
        signal.signal(signal.SIGALRM, self.end)

    def end(self, *_):
        if self.running is not None:
            os.kill(self.running, signal.SIGKILL)

    def wait(self, process, seconds):
        """Waits until this process has ended, for at most this number of seconds. Returns its status and what it used."""
        self.running = process
        signal.setitimer(signal.ITIMER_REAL, seconds)
        # Until it is waited for below, its number belongs to no other process, so that no alarm ends another one.
        os.waitid(os.P_PID, process, os.WEXITED | os.WNOWAIT)
        signal.setitimer(signal.ITIMER_REAL, 0)
        self.running = None
        _, status, used = os.wait4(process, 0)
        return os.waitstatus_to_exitcode(status), used


WATCH = Watch()
# Runs the words behind it, the last of which is the file that is read, and prints what that took on standard error.
MEASURED = """
import os, sys
*words, text = sys.argv[1:]
ways = [(os.POSIX_SPAWN_OPEN, 0, text, os.O_RDONLY, 0)]
_, status, used = os.wait4(os.posix_spawn(words[0], words, {}, file_actions=ways), 0)
print(used.ru_utime + used.ru_stime, used.ru_maxrss * 1_024, file=sys.stderr)
sys.exit(os.waitstatus_to_exitcode(status))
"""


def costs(words, text):
    """The seconds and the peak of memory of a run on the text in this file, what it writes and its status. A process of
    its own starts it: what this one has would count as the program's."""
    words = [sys.executable, "-c", MEASURED, *words, text]
    ran = subprocess.run(words, capture_output=True, timeout=SECONDS)
    seconds, peak = ran.stderr.split()[-2:]
    return float(seconds), int(peak), ran.stdout, ran.returncode


class Program:
    """Runs the program, one run after another, with its input and both outputs in files in memory."""

    def __init__(self, path=PROGRAM, seconds=SECONDS):
        self.path, self.longest = path, seconds
        self.files = [os.memfd_create(name) for name in ("given", "wrote", "said")]
        self.ways = [(os.POSIX_SPAWN_DUP2, file, number) for number, file in enumerate(self.files)]
        # What the last run took of a processor.
        self.seconds = 0.0

    def __call__(self, words, given):
        """What a run writes, what it says and its status, which is below 0 where a signal ended it."""
        for file in self.files:
            os.ftruncate(file, 0)
            os.lseek(file, 0, os.SEEK_SET)
        os.pwrite(self.files[0], given, 0)
        process = os.posix_spawn(self.path, [self.path, *words], {}, file_actions=self.ways)
        status, used = WATCH.wait(process, self.longest)
        self.seconds = used.ru_utime + used.ru_stime
        wrote, said = (os.pread(it, os.fstat(it).st_size, 0) for it in self.files[1:])
        return wrote, said, status
