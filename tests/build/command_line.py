"""Shows what `ra_monitor` does with its arguments, in a clone and where it is installed."""
import os
import pty
import re
import shutil
import socket
import subprocess

from assertions import require
from fake_repository import EXPLAINS, KIT, PROGRAM, RELEASE, SECONDS, TOP, WHOLE, Ran, built, check, unprivileged
from model import KINDS

BENCH = ("--kind", "rga", "--replicas", "3", "--rounds", "4")
FAULT = "a text of status 2 says:line 7: syntax"
SYNOPSES = {
    "check": "ra_monitor check [--report] [--why] [FILE]",
    "explain": "ra_monitor explain [--json | --svg | --html | --sequence] [FILE]",
    "bench": "ra_monitor bench --kind KIND --replicas N --rounds M",
    "trial": "ra_monitor trial check | explain | bench ..",
    "help": "ra_monitor help [check | explain | bench | trial | format | replies]",
}
# The help pages that are no subcommand's, with words of each.
PAGES = {"format": "A history is text.", "replies": "`check` prints a reply to each line behind the second one:"}
# Arguments that are refused, with what is said of them, and the synopsis that follows.
WRONG = [
    (["chekc"], "there is no subcommand 'chekc'; did you mean 'check'?", "explain"),
    (["explian"], "did you mean 'explain'?", "check"),
    (["--versoin"], "did you mean '--version'?", "check"),
    (["Check"], "did you mean 'check'?", "check"),
    (["history"], "there is no subcommand 'history'\n", "bench"),
    ([""], "there is no subcommand ''", "check"),
    (["--json"], "an option stands behind its subcommand: ./ra_monitor explain --json\n", "check"),
    (["--kind=rga"], "an option stands behind its subcommand: ./ra_monitor bench --kind=rga\n", "check"),
    (["--pdf"], "there is no option '--pdf'\n", "check"),
    (["-v"], "there is no option '-v'; did you mean '-V'?", "check"),
    (["CHECK"], "there is no subcommand 'CHECK'; did you mean 'check'?", "check"),
    (["check", "--json"], "check has no option '--json'; explain has it", "check"),
    (["explain", "--why"], "explain has no option '--why'; check has it", "explain"),
    (["explain", "--HTML"], "explain has no option '--HTML'; did you mean '--html'?", "explain"),
    (["explain", "-o", "x"], "explain has no option '-o'; the output is standard output", "explain"),
    (["bench", "--kind", "--replicas", "3"], "--kind needs a value, but '--replicas' follows", "bench"),
    (["help", "chekc"], "help has no page 'chekc'; did you mean 'check'?", "help"),
    (["help", "pages"], "help has no page 'pages'\n", "help"),
    (["help", ""], "help has no page ''\n", "help"),
    (["help", "check bench"], "help has no page 'check bench'\n", "help"),
    (["--help", "check", "bench"], "help takes one page at a time, not: check bench", "help"),
    (["--version", "x"], "--version takes no other arguments", None),
    (["-V", "x"], "-V takes no other arguments", None),
    (["check", "--reports"], "check has no option '--reports'; did you mean '--report'?", "check"),
    (["check", "--report=yes"], "--report takes no value; the output is standard output", "check"),
    (["check", "--pdf=yes"], "check has no option '--pdf=yes'\n", "check"),
    (["check", "-r"], "check has no option '-r'", "check"),
    (["check", "one", "other"], "there is more than one file: 'one' and 'other'", "check"),
    (["check", ""], "the name of the file is empty", "check"),
    (["explain", "--pdf"], "explain has no option '--pdf'\n", "explain"),
    (["explain", "--seq"], "explain has no option '--seq'; did you mean '--sequence'?", "explain"),
    (["explain", "--json", "--json"], "--json is given twice", "explain"),
    (["explain", "--jsno"], "did you mean '--json'?", "explain"),
    (["explain", "--svg", "--html"], "--sequence, not both --svg and --html", "explain"),
    (["bench"], "--kind is missing", "bench"),
    (["bench", *BENCH[:2]], "--replicas is missing", "bench"),
    (["bench", *BENCH[:4]], "--rounds is missing", "bench"),
    (["bench", *BENCH[:5]], "--rounds has no value", "bench"),
    (["bench", *BENCH, "x"], "bench has no argument 'x': values follow --kind, --replicas, --rounds, as in", "bench"),
    (["bench", *BENCH, "--x"], "bench has no option '--x'\n", "bench"),
    (["bench", "--kidn", "rga"], "did you mean '--kind'?", "bench"),
    (["bench", *BENCH, "--kind", "rga"], "--kind is given twice", "bench"),
    (["bench", "--kind", "", *BENCH[2:]], "the value of --kind is empty", "bench"),
    (["bench", "--kind", "set", *BENCH[2:]],
     "--kind is counter, register, lwwset, orset, rga, list, any or mvregister, not 'set'", "bench"),
    *((["bench", *BENCH[:3], it, *BENCH[4:]], f"--replicas is a number from 1 to 16 without a leading zero, not '{it}'",
       "bench") for it in ("0", "17", "256", "03")),
    *((["bench", *BENCH[:5], it], f"--rounds is a number from 1 to 1000 without a leading zero, not '{it}'", "bench")
      for it in ("0", "04", "+4", "1001", "4294967296", "99999999999999999999", "-1", "four")),
    (["trial"], "trial is followed by check, explain or bench", "trial"),
    (["trial", "chekc"], "trial is followed by check, explain or bench", "trial"),
    (["trial", "check", "--json"], "check has no option '--json'", "check"),
]


@check
def wrong_arguments_are_refused_before_any_build(repository):
    """With `usage`, what is wrong, and how it is written."""
    for words, wrong, subcommand in WRONG:
        ran = repository.run(*words)
        require(ran.refuses(wrong) and ran.said.startswith("usage\n./ra_monitor: "), words, ran)
        require(subcommand is None or f"\n    ./{SYNOPSES[subcommand]}\n" in ran.said, words, ran)
        require("`./ra_monitor help` says more." in ran.said, words, ran)
    require(repository.proved() == [])


@check
def a_file_in_place_of_a_subcommand(repository):
    (repository.folder / "a.rah").write_text("")
    ran = repository.run("a.rah")
    require(ran.refuses("to check this file, write: ./ra_monitor check a.rah"), ran)


@check
def options_come_in_any_order(repository):
    """The program has them in its own."""
    (repository.folder / "a file").write_text("of a file\n")
    for words in (["a file", "--report"], ["--report", "a file"], ["--report", "--", "a file"]):
        ran = repository.run("check", *words)
        require((ran.wrote, ran.status) == ("first text, told check|--report\nof a file\n", 3), words, ran)
    for words in (["a file", "--html"], ["--html", "a file"]):
        ran = repository.run("explain", *words)
        require(ran.wrote == "explaining text, told explain|--html\nof a file\n", words, ran)
    pairs = [BENCH[:2], BENCH[2:4], BENCH[4:]]
    for order in ((0, 1, 2), (2, 0, 1), (1, 2, 0), (2, 1, 0)):
        for words in ([it for at in order for it in pairs[at]], ["=".join(pairs[at]) for at in order]):
            require(repository.run("bench", *words).answers("whole text", "|".join(["bench", *BENCH])), words)


@check
def a_file_is_read_by_its_name(repository):
    built(repository)
    (repository.folder / "--odd").write_text("of an odd name\n")
    require(repository.run("check", "--", "--odd").wrote == "first text, told check\nof an odd name\n")
    for words in ([], ["-"]):
        require(repository.run("check", *words).answers("first text"), words)
    (repository.folder / "closed").write_text("")
    (repository.folder / "closed").chmod(0)
    how = {"before": unprivileged(), "env": repository.environment(RT_TOLD="/dev/null")}
    (repository.folder / "shut").mkdir()
    (repository.folder / "shut" / "history").write_text("")
    (repository.folder / "shut").chmod(0)
    with socket.socket(socket.AF_UNIX) as held:
        held.bind(str(repository.folder / "socket"))
    for name, wrong in (("none", "there is no file 'none'"), (".", "'.' is a directory: expected a file"),
                        ("closed", "'closed' cannot be opened: permission denied"),
                        ("shut/history", "'shut/history' cannot be opened: permission denied"),
                        ("socket", "'socket' cannot be opened: no such device or address")):
        require(repository.run("check", name, **how).refuses(wrong), name)
    (repository.folder / "shut").chmod(0o700)


@check
def a_file_with_a_space_is_named_as_a_shell_reads_it(repository):
    (repository.folder / "my history").write_text("")
    require(repository.run("my history").refuses("write: ./ra_monitor check my\\ history"))


@check
def a_refusal_that_cannot_be_written_is_no_violation(repository):
    built(repository)
    for words in ("chekc", "check none", "check .", "check --json", "bench"):
        for closed in ("2> /dev/full", "2>&-"):
            ran = subprocess.run(["bash", "-c", f'"$0" {words} {closed}', repository.top / "ra_monitor"],
                                 cwd=repository.folder, env=repository.environment(), timeout=SECONDS)
            require(ran.returncode == 2, words, closed, ran.returncode)


@check
def each_form_of_help(repository):
    whole = repository.run("help")
    require(whole.status == 0 and not whole.said, whole)
    require(all(f"    ./{it}\n" in whole.wrote for it in SYNOPSES.values()), whole)
    for words in (["--help"], ["-h"], ["help", "help"], ["help", "--help"], ["--help", "-h"]):
        require(repository.run(*words).wrote == whole.wrote, words)
    for name, words in PAGES.items():
        ran = repository.run("help", name)
        require(ran.wrote.startswith(words) and (ran.said, ran.status) == ("", 0), ran)
        require(max(map(len, ran.wrote.splitlines())) <= 120, ran)
    for subcommand, synopsis in list(SYNOPSES.items())[:4]:
        ran = repository.run("help", subcommand)
        require(ran.wrote.startswith(f"./{synopsis}\n\n") and (ran.said, ran.status) == ("", 0), ran)
        for words in (["--help"], ["-h"], *([] if subcommand == "trial" else [["--report", "--help"]])):
            require(repository.run(subcommand, *words).wrote == ran.wrote, subcommand, words)
    require(repository.run("check", "--help", "--", "--help").wrote == repository.run("help", "check").wrote)
    require(repository.proved() == [])


@check
def help_that_cannot_be_written(repository):
    """Its status is that of a fault, and not that of a violation."""
    for words in (["help"], ["help", "check"], ["help", "format"], ["check", "--help"]):
        with open("/dev/full", "w") as full:
            ran = subprocess.run([repository.top / "ra_monitor", *words], stdout=full, stderr=subprocess.PIPE,
                                 text=True)
        require(ran.returncode == 2, words, ran)
        require(ran.stderr.endswith("ra_monitor: standard output cannot be written: No space left on device\n"), ran)


@check
def the_help_has_each_word_of_the_format(repository):
    """Of replies, causes and refusals as of lines: what the tables of docs/reference have."""
    pages = {name: repository.run("help", name).wrote for name in PAGES}
    reference = TOP / "docs" / "reference"
    why = (reference / "replies.md").read_text().split("## Refusals")[1]
    refusals = set(re.findall(r"^\| `([a-z-]+)(?: M)?`", why, re.MULTILINE))
    require(len(refusals) == 13, refusals)
    replies = ("ok N", "got N", "joined N", "yes N", "no N CAUSE", "end yes N")
    for word in (*refusals, *replies, "order", "update", "query"):
        require(re.search(rf"(^|[ `]){word}([ `]|$)", pages["replies"], re.MULTILINE), word)
    text = (reference / "text_format.md").read_text()
    table = text[text.index("| Body |"):].split("\n\n")[0]
    bodies = set(re.findall(r"^\| `([a-z]+)`", table, re.MULTILINE))
    require(bodies == {"inc", "read", "write", "add", "remove", "after", "insert", "part", "update"}, bodies)
    for word in (*bodies, *KINDS, "list", "verdict", "join", "got", "dec"):
        require(re.search(rf"\b{word}\b", pages["format"]), word)


@check
def a_syntax_fault_is_explained(repository):
    """Of a file, where that is asked for; behind the fault's own line, and with the program's status."""
    repository.write(f"crates/{PROGRAM}/src/main.rt", FAULT)
    (repository.folder / "history").write_text("a line\n")
    ran = repository.run("check", "history", "--why")
    require(ran.said.startswith("building "), ran)
    require((ran.wrote, ran.status) == ("a text of status 2, told check\na line\n", 2), ran)
    require(ran.said.endswith("line 7: syntax\n`./ra_monitor explain history` says what is wrong with this line; its "
                              "first run takes some ten minutes\n"), ran)
    repository.run("explain")
    explained = "line 7: syntax\n\nexplaining text, told explain\na line\n"
    for words, given in ((["check", "history", "--why"], None), (["check", "--why"], repository.folder / "history")):
        with open(given or os.devnull) as stdin:
            ran = run_on(repository, words, stdin=stdin)
        require((ran.said, ran.status) == (explained, 2), words, ran)
    require(repository.run("check", "history").said == "line 7: syntax\n")
    for fault in ("truncated", "too long", "full"):
        repository.write(f"crates/{PROGRAM}/src/main.rt", FAULT.replace("syntax", fault))
        repository.run("check")
        require(repository.run("check", "--why", "history").said == explained.replace("syntax", fault), fault)
    pipe = repository.folder / "pipe"
    os.mkfifo(pipe)
    with open(os.open(pipe, os.O_RDWR), "w") as held:
        ran = repository.run("check", "--why", "pipe")
        require(ran.refuses("'pipe' is a pipe or a device; save it to a file, or use: ./ra_monitor explain"), ran)
        require(not held.closed)
    ran = repository.run("check", "--why")
    require(ran.refuses("--why reads the history twice, and standard input is no file; save it to a file, or use: "
                        "./ra_monitor explain"))


def run_on(repository, words, **how):
    ran = subprocess.run([repository.top / "ra_monitor", *words], cwd=repository.folder, capture_output=True, text=True,
                         env=repository.environment(), timeout=SECONDS, **how)
    return Ran(ran.stdout, ran.stderr, ran.returncode)


@check
def other_ends_are_not_explained(repository):
    """A pass, a violation, and a fault that is none of the text."""
    repository.run("explain")
    (repository.folder / "history").write_text("a line\n")
    for status, said in ((0, "line 7: syntax"), (1, ""), (2, "no memory"), (2, "line 7: syntax in words"), (3, "")):
        repository.write(f"crates/{PROGRAM}/src/main.rt", f"a text of status {status} says:{said}")
        repository.run("check")
        ran = repository.run("check", "--why", "history")
        require((ran.status, ran.said) == (status, f"{said}\n" if said else ""), ran)
        require(ran.wrote == f"a text of status {status}, told check\na line\n", ran)


@check
def a_fault_is_explained_on_a_terminal(repository):
    repository.write(f"crates/{PROGRAM}/src/main.rt", FAULT)
    repository.run("check")
    repository.run("explain")
    (repository.folder / "history").write_text("a line\n")
    ran, said = run_on_a_terminal(repository, "check", "history")
    require((ran.stdout, ran.returncode) == (b"a text of status 2, told check\na line\n", 2), ran)
    require(said == "line 7: syntax\n\nexplaining text, told explain\na line\n", said)


def run_on_a_terminal(repository, *words):
    """A run whose standard error is a terminal, and what that shows."""
    ours, theirs = pty.openpty()
    ran = subprocess.run([repository.top / "ra_monitor", *words], cwd=repository.folder, stdin=subprocess.DEVNULL,
                         stdout=subprocess.PIPE, stderr=theirs, env=repository.environment(), timeout=SECONDS)
    os.close(theirs)
    shown = b""
    try:
        while part := os.read(ours, 65_536):
            shown += part
    except OSError:
        # All was read, and nobody has the other end.
        pass
    os.close(ours)
    return ran, shown.decode().replace("\r\n", "\n")


@check
def a_terminal_names_the_next_step(repository):
    """After a violation and after rejected lines; a pass needs none, and a program that reads the output gets none."""
    (repository.folder / "history").write_text("a line\n")
    for status, words in ((0, ""), (1, "`./ra_monitor explain history` says why\n"), (2, "no memory\n"),
                          (3, "`./ra_monitor explain history` says why\n")):
        fault = "no memory" if status == 2 else ""
        repository.write(f"crates/{PROGRAM}/src/main.rt", f"a text of status {status} says:{fault}")
        require(repository.run("check").said.startswith("building "))
        ran, said = run_on_a_terminal(repository, "check", "history")
        require((ran.returncode, said) == (status, words), ran, said)
        require(repository.run("check", "history").said == ("no memory\n" if status == 2 else ""))


@check
def the_first_check_on_a_terminal_mentions_the_trial(repository):
    hint = "`./ra_monitor trial check FILE` answers in one to two minutes, from a build without any proof"
    require(hint not in repository.run("check").said)
    shutil.rmtree(repository.top / "crates" / PROGRAM / "out")
    ran, said = run_on_a_terminal(repository, "check")
    require(ran.returncode == 3 and said.splitlines()[1] == hint, said)
    require(hint not in run_on_a_terminal(repository, "check")[1])
    require(hint not in run_on_a_terminal(repository, "bench", *BENCH)[1])


@check
def a_trial_runs_without_a_proof(repository):
    """And says so, and what the proved run costs."""
    (repository.folder / "history").write_text("a line\n")
    for words, crate, told in ((["check", "history"], PROGRAM, "check"),
                               (["explain", "--json"], EXPLAINS, "explain|--json"),
                               (["bench", *BENCH], WHOLE, "|".join(["bench", *BENCH]))):
        ran = repository.run("trial", *words, given="a line\n")
        require((ran.wrote, ran.status) == (f"{crate} without proof, told {told}\na line\n", 1), words, ran)
        note, *said = ran.said.splitlines()
        require("nothing is proved" in note and f"`./ra_monitor {words[0]}` proves it" in note, ran)
        require(said == ["line 7: syntax"], ran)
    require(repository.proved() == [])


# Where it is installed


def installed(repository):
    """The installed command, in a folder whose path has a space, and a path on which there is neither rt nor Python."""
    ran = repository.run(repository.folder / "a prefix", at="tools/install")
    require(ran.status == 0, ran)
    repository.top.rename(repository.folder / "gone")
    programs = repository.folder / "programs"
    programs.mkdir()
    for name in ("bash", "cat", "env", "readlink", "sh"):
        (programs / name).symlink_to(shutil.which(name))
    return repository.folder / "a prefix" / "bin" / "ra_monitor", {"PATH": str(programs)}


def run_installed(command, words, bare, folder, given="given\n"):
    ran = subprocess.run([command, *words], input=given, capture_output=True, text=True, cwd=folder, env=bare,
                         timeout=SECONDS)
    return Ran(ran.stdout, ran.stderr, ran.returncode)


@check
def the_installed_command_has_each_subcommand(repository):
    """From an empty folder, by a link, without this repository, without rt and without Python."""
    command, bare = installed(repository)
    folder = repository.folder / "empty"
    folder.mkdir()
    link = repository.folder / "link"
    link.symlink_to(command)
    (repository.folder / "history").write_text("given\n")
    for start in (command, link):
        for words, answer in ((["check"], ("whole text", "check")), (["check", "../history", "--report"],
                              ("whole text", "check|--report")), (["explain", "--html"], ("explaining text",
                              "explain|--html")), (["bench", *BENCH], ("whole text", "|".join(["bench", *BENCH])))):
            ran = run_installed(start, words, bare, folder)
            require(ran.answers(*answer) and not ran.said, words, ran)
        for words in (["help"], ["--help"], ["-h"], ["check", "--help"], ["help", "explain"], ["bench", "-h"]):
            ran = run_installed(start, words, bare, folder)
            require(ran.status == 0 and "ra_monitor " in ran.wrote and "./ra_monitor" not in ran.wrote, words, ran)
            require("trial" not in ran.wrote and "README" not in ran.wrote, words, ran)
            require(str(repository.folder) not in ran.wrote, words, ran)
        for name, words in PAGES.items():
            require(run_installed(start, ["help", name], bare, folder).wrote.startswith(words), name)
        require(run_installed(start, ["help", "trial"], bare, folder).refuses("help has no page 'trial'"))
        ran = run_installed(start, ["chekc"], bare, folder)
        require(ran.refuses("did you mean 'check'?") and "trial" not in ran.said, ran)
        require(run_installed(start, ["trial", "check"], bare, folder).refuses("trial needs a clone of the repository"))
    require(list(folder.iterdir()) == [])


@check
def the_installed_command_explains_a_syntax_fault(repository):
    repository.write(f"crates/{WHOLE}/src/main.rt", FAULT)
    command, bare = installed(repository)
    (repository.folder / "history").write_text("a line\n")
    ran = run_installed(command, ["check", "--why", "history"], bare, repository.folder)
    require((ran.said, ran.status) == ("line 7: syntax\n\nexplaining text, told explain\na line\n", 2), ran)


@check
def the_installed_version_has_the_sums_of_its_programs(repository):
    commit = repository.git("rev-parse", "--short=12", "HEAD").strip()
    command, bare = installed(repository)
    ran = run_installed(command, ["--version"], bare, "/")
    folder = command.parent.parent / "libexec" / "ra_monitor"
    for program, words in ((WHOLE, "check, bench"), (EXPLAINS, "explain")):
        summed = subprocess.run(["sha256sum", folder / program], capture_output=True, text=True).stdout.split()[0]
        [line] = [it for it in ran.wrote.splitlines() if program in it]
        require(line.startswith(words) and line.endswith(summed), ran)
    require(ran.wrote.startswith(f"ra_monitor {RELEASE}, commit {commit}\n"), ran)
    require(f"kit        {KIT}\n" in ran.wrote, ran)


@check
def an_installed_program_that_is_missing(repository):
    command, bare = installed(repository)
    program = command.parent.parent / "libexec" / "ra_monitor" / EXPLAINS
    program.unlink()
    ran = run_installed(command, ["explain"], bare, "/")
    require(ran.refuses(f"{program} is missing: please install once more (tools/install)"), ran)
    help_file = program.parent / "help"
    help_file.unlink()
    ran = run_installed(command, ["check"], bare, "/")
    require(ran.refuses(f"{help_file} is missing: please install once more (tools/install)"), ran)


@check
def nothing_is_installed_where_nothing_can_be_written(repository):
    built(repository)
    (repository.folder / "file").write_text("")
    ran = repository.run(repository.folder / "file", at="tools/install")
    require(ran.refuses("nothing can be installed in", str(repository.folder / "file")), ran)
    require(repository.run("--help", at="tools/install").wrote.startswith("Installs the command"))
    require(repository.run(at="tools/install").refuses("tools/install PREFIX"))
