"""The command `watch`, as a process: its status, its end, its page, and what a terminal gets."""
import os
import random
import re
import signal
import stat
import tempfile
import time
import unittest
from pathlib import Path
from typing import Dict, List, Optional, Set, Tuple

from watched import PACKAGE, Watched, screen, strip_colours
from yehatu.watch_counts import Counts, Unanswered

COUNTER = "RAH 1 counter\nreplicas a b\n"
# A program that explains in known words, with a control character, and that checks as another one does.
EXPLAINS = """\
#!/bin/sh
if [ "$1 $2" = "explain --html" ]; then echo "<!doctype html>"; exec cat; fi
if [ "$1" = explain ]; then printf 'expected        a label \\033[31m\\n'; exit 2; fi
exec "PROGRAM" "$@"
"""
# A status line: its verdict, its number of reports, and what follows them.
STATUS = re.compile(r"(yes|no .*) after \d+ s: reports ([\d,]+) \([\d,]+/s\), (.*)")


class Folder(unittest.TestCase):
    """Tests of runs in a temporary folder, where they keep what they keep."""

    def setUp(self) -> None:
        folder = tempfile.TemporaryDirectory()
        self.addCleanup(folder.cleanup)
        self.folder = Path(folder.name)

    def watched(self, *words: str, columns: Optional[int] = None, **changes: Optional[str]) -> Watched:
        """Starts a run."""
        run = Watched(*words, columns=columns, cwd=str(self.folder), **{"TMPDIR": str(self.folder), **changes})
        self.addCleanup(run.__exit__)
        return run

    def program(self, text: str) -> str:
        """Returns the path of a program with this text, in which PROGRAM is the one that the tests use."""
        path = self.folder / "program"
        monitor = os.environ.get("RA_MONITOR") or str(Path(PACKAGE).parents[1] / "ra_monitor")
        path.write_text(text.replace("PROGRAM", monitor))
        path.chmod(path.stat().st_mode | stat.S_IXUSR)
        return str(path)

    def kept(self) -> List[Path]:
        """Returns the histories that were kept."""
        return sorted(self.folder.glob("yehatu_*.rah"))


def statuses(run: Watched) -> List[Tuple[str, ...]]:
    """Returns the status lines: of each the verdict, the number of reports, and what follows them."""
    return [found.groups() for found in map(STATUS.fullmatch, run.lines()) if found]


class Ends(Folder):
    def test_a_pass_has_its_counts_and_the_end_line(self) -> None:
        run = self.watched()
        run.write(COUNTER + "a inc\nb got 0\nb read 1\nverdict\na dec\n")
        run.close()
        self.assertEqual((run.wait(), run.stdout), (0, b"end yes 3\n"))
        self.assertEqual(statuses(run), [("yes", "5", "labels 3, refused 0, lag b 1, a 0")])
        self.assertEqual((self.kept(), run.lines()[1:]), ([], ["--page FILE writes a page about such a run"]))

    def test_replies_are_those_of_the_check(self) -> None:
        run = self.watched("--replies")
        run.write(COUNTER + "a inc\nb got 0\nb got 0\n")
        run.wait_for("stdout", "refused already-seen\n")
        run.write("b read 1")
        run.write("\n")
        run.close()
        self.assertEqual((run.wait(), run.stdout), (3, b"ok 0\ngot 0\nrefused already-seen\nok 1\nend yes 2\n"))

    def test_a_violation_is_shown_at_once(self) -> None:
        run = self.watched("--every", "3600")
        run.write(COUNTER + "a inc\nb read 1\n")
        run.wait_for("stderr", "\n")
        self.assertEqual(run.lines(), [
            "line 4, b read 1: no 1 query: its result does not follow from the updates that it sees"
        ])
        run.write("a inc\na inc\n")
        run.close()
        self.assertEqual((run.wait(), run.stdout), (1, b"end no 1 query\n"))
        self.assertEqual(statuses(run), [("no 1 query at line 4", "4", "those after line 4 not judged")])

    def test_stop_ends_at_the_first_violation(self) -> None:
        run = self.watched("--stop", "--page", "page.html", RA_MONITOR=self.program(EXPLAINS))
        run.write(COUNTER + "a inc\nb read 1\na inc\na inc\n")
        self.assertEqual((run.wait(), run.stdout), (1, b"end no 1 query\n"))
        page = (self.folder / "page.html").read_text()
        self.assertEqual(page, f"<!doctype html>\n{COUNTER}a inc\nb read 1\n")

    def test_the_first_refusal_of_each_cause_is_shown(self) -> None:
        run = self.watched("--every", "3600")
        run.write(COUNTER + "a got 0\nc inc\nb got 7\nb got 8\nd inc\n")
        run.close()
        self.assertEqual((run.wait(), run.stdout), (3, b"end yes 0\n"))
        self.assertEqual([it for it in run.lines() if it.startswith("line ")], [
            "line 3, a got 0: refused unknown-label (the first with this cause)",
            "line 4, c inc: refused unknown-replica (the first with this cause)",
        ])
        self.assertEqual(statuses(run), [("yes", "5", "labels 0, refused 5, lag a 0, b 0")])

    def test_an_interrupt_ends_with_the_verdict(self) -> None:
        run = self.watched("--replies")
        run.write(COUNTER + "a inc\na re")
        run.wait_for("stdout", "ok 0\n")
        run.interrupt()
        self.assertEqual((run.wait(), run.stdout), (0, b"ok 0\nend yes 1\n"))

    def test_a_second_interrupt_ends_the_run_at_once(self) -> None:
        run = self.watched("--every", "0.1", RA_MONITOR=self.program("#!/bin/sh\ncat > /dev/null\nsleep 10\n"))
        run.wait_for("stderr", "reports 0")
        for _ in range(40):
            if not run.has_ended():
                run.interrupt()
                time.sleep(0.2)
        self.assertEqual(run.wait(), -signal.SIGINT)

    def test_a_syntax_fault_is_shown_with_what_is_expected(self) -> None:
        run = self.watched("--replies", RA_MONITOR=self.program(EXPLAINS))
        run.write(COUNTER + "a inc\nb got\x1b[2J 00\n")
        self.assertEqual((run.wait(), run.stdout), (2, b"ok 0\n"))
        self.assertEqual(statuses(run), [("no verdict", "1", "labels 1, refused 0, lag b 1, a 0")])
        self.assertEqual(run.lines()[1:3], ["line 4: syntax", r"expected        a label \x1b[31m"])
        self.assertEqual(self.kept()[0].read_bytes(), COUNTER.encode() + b"a inc\nb got\x1b[2J 00\n")

    def test_a_fault_without_an_explanation_shows_the_line(self) -> None:
        run = self.watched(RA_MONITOR=self.program('#!/bin/sh\n[ "$1" = check ] || exit 7\nexec "PROGRAM" "$@"\n'))
        run.write(COUNTER + f"a inc\nb got\x1b[2J\x9b {'0' * 100}\n")
        self.assertEqual(run.wait(), 2)
        self.assertEqual(run.lines()[1:3], [
            "line 4: syntax", rf"b got\x1b[2J\x9b {'0' * 49} ..: `ra_monitor help format` says what is expected"
        ])

    def test_an_unfinished_last_line_is_a_fault(self) -> None:
        run = self.watched()
        run.write(COUNTER + "a inc\na inc")
        run.close()
        self.assertEqual((run.wait(), run.stdout), (2, b""))
        self.assertIn("line 4: truncated", run.lines())

    def test_a_program_that_is_no_monitor_is_reported(self) -> None:
        for text, message in (
            ("exec cat", "the program is not a monitor: it replied 'RAH 1 counter'"),
            ("cat > /dev/null; echo tired >&2; exit 1", "exited with status 1; its standard error is 'tired'"),
        ):
            with self.subTest(text=text):
                run = self.watched(RA_MONITOR=self.program(f"#!/bin/sh\n{text}\n"))
                run.write(COUNTER + "a inc\n")
                run.close()
                self.assertEqual((run.wait(), run.stdout), (2, b""))
                self.assertIn(message, run.stderr.decode())

    def test_wrong_arguments_are_rejected(self) -> None:
        for words, message in (
            (["--every", "0"], "expected a number of seconds from 0.1 to 86400"),
            (["--every", "soon"], "soon"),
            (["--follow"], "--follow needs a FILE"),
            (["--page", "nowhere/page.html"], "nowhere/page.html"),
            (["nowhere.rah"], "nowhere.rah"),
        ):
            with self.subTest(words=words):
                run = self.watched(*words)
                self.assertEqual((run.wait(), run.stdout), (2, b""))
                self.assertIn(message, run.stderr.decode())


class Pages(Folder):
    def test_the_page_is_about_the_whole_text(self) -> None:
        run = self.watched("--page", "page.html", RA_MONITOR=self.program(EXPLAINS))
        run.write(COUNTER + "a inc\na read 1\n")
        run.close()
        self.assertEqual(run.wait(), 0)
        self.assertEqual((self.folder / "page.html").read_text(), f"<!doctype html>\n{COUNTER}a inc\na read 1\n")
        self.assertEqual((run.lines()[1:], self.kept()), (["the page about it: page.html"], []))

    def test_the_history_of_a_violation_is_kept(self) -> None:
        program = self.program(EXPLAINS)
        run = self.watched(RA_MONITOR=program)
        run.write(COUNTER + "a read 1\n")
        run.close()
        self.assertEqual(run.wait(), 1)
        kept, = self.kept()
        self.assertEqual(kept.read_text(), COUNTER + "a read 1\n")
        command = f"a page about it: {program} explain --html {kept} > page.html"
        self.assertEqual(run.lines()[2:], [f"the history: {kept}", command])

    def test_a_file_is_named_and_not_kept_again(self) -> None:
        (self.folder / "a history.rah").write_text(COUNTER + "a read 1\n")
        run = self.watched("a history.rah", RA_MONITOR=self.program(EXPLAINS))
        self.assertEqual((run.wait(), self.kept()), (1, []))
        self.assertTrue(run.lines()[2].endswith("explain --html 'a history.rah' > page.html"), run.lines())

    def test_a_program_that_cannot_explain_makes_no_page(self) -> None:
        run = self.watched("--page", "page.html", RA_MONITOR=self.program(
            '#!/bin/sh\n[ "$1" = check ] || exit 7\nexec "PROGRAM" "$@"\n'
        ))
        run.write(COUNTER)
        run.close()
        self.assertEqual((run.wait(), run.stdout), (0, b"end yes 0\n"))
        self.assertIn("there is no page: the program has no `explain`", run.stderr.decode())
        self.assertEqual([it.read_text() for it in self.kept()], [COUNTER])


class Sources(Folder):
    def test_a_growing_file_is_followed(self) -> None:
        path = self.folder / "growing.rah"
        path.write_text(COUNTER + "a inc\n")
        run = self.watched(str(path), "--follow", "--replies")
        run.wait_for("stdout", "ok 0\n")
        with path.open("a") as file:
            for number in range(1, 4):
                file.write("a i")
                file.flush()
                time.sleep(0.1)
                file.write("nc\n")
                file.flush()
                run.wait_for("stdout", f"ok {number}\n")
        run.interrupt()
        self.assertEqual((run.wait(), run.stdout), (0, b"ok 0\nok 1\nok 2\nok 3\nend yes 4\n"))

    def test_a_file_ends_without_follow(self) -> None:
        (self.folder / "whole.rah").write_text(COUNTER + "a inc\n" * 30_000)
        run = self.watched("whole.rah")
        self.assertEqual((run.wait(), run.stdout), (0, b"end yes 30000\n"))
        self.assertEqual(statuses(run)[-1], ("yes", "30,000", "labels 30,000, refused 0, lag b 30,000, a 0"))

    def test_memory_does_not_grow_with_the_text(self) -> None:
        elements = ",".join(map(str, range(1000, 2000)))
        reads = f"a read {elements}\n" * 200
        peaks = []
        for rounds in (4, 40):
            run = self.watched("--every", "3600")
            run.write("RAH 1 lwwset\nreplicas a b\n")
            run.write("".join(f"a add {it} @{it}\n" for it in range(1000, 2000)))
            for _ in range(rounds):
                run.write(reads)
            run.write("a got 0\n")
            run.wait_for("stderr", "refused")
            peak = re.search(r"VmHWM:\s+(\d+) kB", Path(f"/proc/{run.pid}/status").read_text())
            peaks.append(int(peak[1]) if peak else 0)
            run.close()
            run.wait()
        # The texts have 4 and 40 million bytes.
        self.assertLess(peaks[1] - peaks[0], 12_000)


class Terminals(Folder):
    def test_without_a_terminal_the_status_is_plain_lines(self) -> None:
        run = self.watched("--every", "0.1")
        run.write(COUNTER + "a inc\n")
        run.wait_for("stderr", "reports 1 ", 2)
        run.close()
        run.wait()
        self.assertNotIn(b"\r", run.stderr)
        self.assertNotIn(b"\x1b", run.stderr)
        self.assertEqual(statuses(run)[-2:], [("yes", "1", "labels 1, refused 0, lag b 1, a 0")] * 2)

    def test_a_terminal_has_one_line_that_is_rewritten(self) -> None:
        run = self.watched("--every", "0.1", columns=200)
        run.write(COUNTER + "a inc\n" * 1000)
        run.wait_for("stderr", "reports 1,000", 3)
        # Each is written behind a carriage return, and covers the longer one before.
        self.assertTrue(screen(run.stderr)[0].endswith("lag b 1,000, a 0"), screen(run.stderr))
        run.write("b read 1\n")
        run.wait_for("stderr", "not judged", 3)
        self.assertNotIn(b"\n", run.stderr.split(b"line 1003")[0])
        lines = screen(run.stderr)
        self.assertEqual(lines[0], (
            "line 1003, b read 1: no 1000 query: its result does not follow from the updates that it sees"
        ))
        self.assertRegex(lines[1], r"^no 1000 query at line 1003 after \d+ s: reports 1,001 \([\d,]+/s\), those after "
                                   "line 1003 not judged$")
        self.assertEqual(len(lines), 2)
        run.close()
        self.assertEqual(run.wait(), 1)

    def test_the_status_is_cut_at_the_width(self) -> None:
        run = self.watched("--every", "0.1", columns=30)
        run.write(COUNTER + "a inc\n")
        run.wait_for("stderr", "reports 1", 2)
        shown = [strip_colours(it).rstrip() for it in run.stderr.decode().split("\r") if "reports 1" in it]
        self.assertEqual({len(it) <= 29 and it.startswith("yes after ") for it in shown}, {True})
        self.assertTrue(any(len(it) >= 28 for it in shown), shown)

    def test_colours_are_for_terminals_that_want_them(self) -> None:
        for changes, has_colours in (({}, True), ({"NO_COLOR": "1"}, False), ({"TERM": "dumb"}, False)):
            with self.subTest(changes=changes):
                run = self.watched("--every", "0.1", columns=120, **changes)
                run.write(COUNTER + "a read 1\n")
                run.wait_for("stderr", "not judged")
                self.assertEqual(b"\x1b[1;31mno 0 query at line 3\x1b[0m after" in run.stderr, has_colours)
                self.assertEqual(b"\x1b" in run.stderr, has_colours)

    def test_control_characters_do_not_reach_the_terminal(self) -> None:
        run = self.watched("--every", "0.1", columns=200, NO_COLOR="1", RA_MONITOR=self.program(
            '#!/bin/sh\n[ "$1" = check ] || exit 7\nread a; read b; read c\necho "no 0 query"\nread d; exit 2\n'
        ))
        run.write("RAH 1 counter\nreplicas \x1b]0;a\x07 b\x9b\n")
        run.wait_for("stderr", r"lag \x1b]0;a\x07 0, b\x9b 0")
        run.write("a \x1b[2J\x07 1\n")
        run.wait_for("stderr", "not judged")
        run.close()
        self.assertEqual(run.wait(), 2)
        allowed = {*range(32, 127), *b"\r\n"}
        self.assertEqual(set(run.stderr) - allowed, set())
        self.assertIn(r"line 3, a \x1b[2J\x07 1: no 0 query", run.stderr.decode())


class Lags(unittest.TestCase):
    """The lags that are counted, beside those of sets of labels."""

    def test_the_lags_are_those_of_the_replies(self) -> None:
        for seed in range(30):
            commands, replies, expected = history(random.Random(seed))
            for size in (1, 7, len(commands)):
                counts = Counts()
                counts.begin(b"replicas a b c")
                for first in range(0, len(commands), size):
                    batch = (commands[first : first + size], replies[first : first + size])
                    counts.add(*("".join(f"{it}\n" for it in lines).encode() for lines in batch))
                with self.subTest(seed=seed, size=size):
                    self.assertEqual(dict(counts.lags()), expected)
                    self.assertEqual([it for _, it in counts.lags()], sorted(expected.values(), reverse=True))

    def test_commands_are_taken_in_their_order(self) -> None:
        unanswered = Unanswered()
        lines = [b"%d inc\n" % number for number in range(100)]
        for first in range(0, 100, 9):
            unanswered.append(b"".join(lines[first : first + 9]))
        taken = [unanswered.take(it) for it in (1, 0, 8, 20, 3, 60, 20)]
        self.assertEqual(taken, [b"".join(lines[first:end]) for first, end in (
            (0, 1), (1, 1), (1, 9), (9, 29), (29, 32), (32, 92), (92, 100)
        )])


def history(chance: random.Random) -> Tuple[List[str], List[str], Dict[str, int]]:
    """Returns the commands of a history with joins, their replies, and how many updates each replica lacks."""
    seen: Dict[str, Set[int]] = {"a": set(), "b": set(), "c": set()}
    updates: List[int] = []
    commands, replies, labels = [], [], 0
    for number in range(chance.randrange(1, 80)):
        name = chance.choice([*seen])
        word = chance.choice(["inc", "inc", "got", "got", "got", "read", "verdict", "join"])
        if word == "verdict":
            commands.append(word)
            replies.append(f"yes {labels}")
        elif word == "join":
            # Some names are in use.
            new = chance.choice([f"r{number}", name])
            commands.append(f"join {new} {name}")
            replies.append("refused replica-there" if new == name else f"joined {len(seen)}")
            seen.setdefault(new, set(seen[name]))
        elif word == "got":
            label = chance.choice([*updates, 1000])
            is_new = label in updates and label not in seen[name]
            commands.append(f"{name} got {label}")
            replies.append(f"got {label}" if is_new else "refused already-seen")
            seen[name] |= {label} if is_new else set()
        else:
            commands.append(f"{name} {word}{' 0' if word == 'read' else ''}")
            replies.append(f"ok {labels}")
            if word == "inc":
                updates.append(labels)
                seen[name].add(labels)
            labels += 1
    return commands, replies, {name: len(updates) - len(those) for name, those in seen.items()}


if __name__ == "__main__":
    unittest.main()
