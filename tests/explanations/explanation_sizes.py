"""Explanations of histories too long for the model, whose facts are known from how they are made; and what those cost.

A cost is compared with that of a check of the same text, in runs made in turns on the same machine.
"""
import json
from pathlib import Path
from tempfile import TemporaryDirectory
from types import SimpleNamespace

from assertions import require
from expected import UPDATES, History, crossing
from explanation_case import MOST_STEPS, MOST_TRIED, listed
from explanation_drawings import MOST_BYTES
from explanation_faults import Stop
from explanation_possible import MOST_ASKED
from explanation_text import cut, headed, line_of_tries, with_label
from model import KINDS
from program import CHECK, EXPLAIN, Program, costs

# The labels of long histories, the deliveries of the longest, and the labels of those whose memory is measured.
LABELS, DELIVERIES, OF_EACH = 100_000, 500_000, 300_000
# How many times the time and the memory of its check an explanation may take; one of this number of turns has to.
TIMES, TIMES_MEMORY, TURNS = 4, 1.5, 5
# The same if it searches how far another order explains the labels: it asks about a few prefixes, and not about one for
# each bit of their number.
TIMES_SEARCH = 7
# The same if a list is read the other way round: the longest beginning that some order allows takes a question for each
# bit of its length.
TIMES_NEAREST = 40
# The elements of a list and of a set of which it is asked what a read can return.
ELEMENTS = 20_000
# What no read of these histories answers.
WRONG = {"counter": "-77777", "register": "none", "lwwset": "-", "orset": "-", "rga": "-"}
# The update with this number, behind the one before.
UPDATES = {**UPDATES, "rga": "after {1} {0} @{0}"}
STAMPED = ("register", "lwwset", "rga")
# An update with this clock, by a replica that has the first two updates.
CLOCKED = {"register": "write 7 @{}", "lwwset": "add 7 @{}", "rga": "after 2 900000 @{}"}


# How many changes are tried.


def read_of_a_front(kind, count):
    """The answer of a read that sees this number of first updates of a replica."""
    if kind in ("counter", "register"):
        return str(count) if count or kind == "counter" else "none"
    return listed(range(count, 0, -1) if kind == "rga" else range(1, count + 1))


def late_read(kind, count, lacks, commands):
    """One replica makes updates, another one gets them all and reads what it would without the latest ones of them. The
    history has this number of commands."""
    made = History(kind, "ab")
    update = "after 0 {0} @{0}" if kind == "rga" else UPDATES[kind]
    for number in range(1, count + 1):
        made.does("a", update.format(number, number - 1))
    made.lines += ["verdict"] * (commands - 2 * count - 1)
    made.gets("b", range(count))
    made.does("b", f"read {read_of_a_front(kind, count - lacks)}")
    return made


def look_at_tries(program, kind, count, lacks, commands):
    """Exactly two changes help: not to get the first of the updates that the read does not answer, and to have read
    before it came. Each is found where it is among the latest that are tried."""
    made, last = late_read(kind, count, lacks, commands), commands + 2
    most = min(MOST_STEPS // commands, MOST_TRIED if kind == "rga" else MOST_STEPS)
    line = last - lacks
    helps = [{"misses_line": line}] * (lacks <= most) + [{"comes_before_line": line}] * (2 <= lacks <= most + 1)
    tried = min(count, most) + min(count - 1, most)
    told = json.loads(program(["explain", "--json"], made.text())[0])
    called = f"{kind}, {count} deliveries, {lacks} too many, {commands} commands"
    found = told["would_be_right"], told["tried"]
    require(found == (helps, tried), called, "changes that help, and how many are tried", found, (helps, tried))
    page = program(["explain"], made.text())[0].decode().splitlines()
    case = SimpleNamespace(places=range(count), said=lambda place: made.lines[place + 2])
    front, behind = headed("explained if", ""), f" had not been delivered to b in line {line}"
    lines = [with_label(case, front, count - lacks, behind)] if lacks <= most else []
    head = "or" if lines else "explained if"
    lines += [headed(head, f"line {last} had come before line {line}")] if 2 <= lacks <= most + 1 else []
    lines = lines or [line_of_tries(tried)]
    found = [it for it in page if it.startswith(("explained if  ", "or              ", "tried  "))]
    require(found == [cut(it) for it in lines], called, found, lines)


def look_at_each_try(program):
    """The last change that is tried, that one of a list, of any kind, and of a long history; and the one behind it."""
    for lacks in (1, 2, 24, 25, 26, 27, 255, 256, 257, 258):
        look_at_tries(program, "rga", 300, lacks, 601)
    for commands in (4_095, 4_096, 4_097, 4_112):
        for lacks in (254, 255, 256, 257):
            look_at_tries(program, "rga", 300, lacks, commands)
    for kind in KINDS:
        look_at_tries(program, kind, 300, 256, 601)
    for kind in ("counter", "register", "lwwset", "orset"):
        look_at_tries(program, kind, 300, 257, 601)
        look_at_tries(program, kind, 300, 300, 601)
    for kind in ("counter", "register"):
        for commands in (8_191, 8_192, 8_193):
            for lacks in (127, 128, 129, 130):
                look_at_tries(program, kind, 200, lacks, commands)


def look_at_deliveries_that_could_have_come(program):
    """Each of many replicas has an update that the reading one lacks: the latest are tried, the fewer the longer the
    history is."""
    names = [f"n{it}" for it in range(63)]
    for commands, most in ((32_767, 32), (32_768, 32), (32_769, 31)):
        for helps in (most - 1, most, most + 1):
            made = History("register", ("b", *names), form=2)
            for number, name in enumerate(names, 1):
                made.does(name, f"write {number} @{number}")
            made.lines += ["verdict"] * (commands - 64)
            made.does("b", f"read {64 - helps}")
            told = json.loads(program(["explain", "--json"], made.text())[0])
            found = [{"gets": 63 - helps}] if helps <= most else []
            require((told["would_be_right"], told["tried"]) == (found, most), commands, helps, told)


def look_at_many_that_lack(program):
    """A counter that reads one too many, while each of many replicas has an update that it lacks: all are tried."""
    names = [f"n{it}" for it in range(12)]
    made = History("counter", ("ann", "bob", *names))
    lacked = [made.does(it, "inc") for it in names]
    made.gets("bob", [made.does("ann", "inc") for _ in range(DELIVERIES // 4)])
    made.does("bob", f"read {DELIVERIES // 4 + 1}")
    told = json.loads(program(["explain", "--json"], made.text())[0])
    require(told["right"] == f"bob read {DELIVERIES // 4}", told)
    require([it for it in told["would_be_right"] if "gets" in it] == [{"gets": it} for it in lacked[::-1]], told)


# What it costs.


def require_soon(program, text, sound=None, times=TIMES):
    """The object of a long history with a violation. One of TURNS runs has to take at most `times` the time of a check of
    the same text, or of `sound`, which holds."""
    check = Program(CHECK)
    checked = (text, 1) if sound is None else (sound, 0)
    for _ in range(TURNS):
        _, _, status = check(["check"], checked[0])
        wrote, said, explained = program(["explain", "--json"], text)
        require((said, explained, status) == (b"", 1, checked[1]), said, explained, status)
        if program.seconds <= times * check.seconds:
            return json.loads(wrote)
    raise AssertionError("too slow", program.seconds, check.seconds)


def look_at_long(program, kind):
    """A read of a long history that is repeated with another answer."""
    lines = crossing(kind, LABELS).text().decode().splitlines()
    last = max(at for at, it in enumerate(lines) if it.split(" ")[1] == "read")
    name, _, answer = lines[last].split(" ")
    require(answer != WRONG[kind], kind)
    text = "".join(f"{it}\n" for it in [*lines[: last + 1], f"{name} read {WRONG[kind]}"])
    told = require_soon(program, text.encode())
    require((told["right"], told["line"], told["cause"]) == (lines[last], last + 2, "query"), kind, told["line"])


def look_at_late_report(program):
    """A read at the end of a million commands that does not know of the last delivery."""
    made = History("counter", ("ann", "bob"))
    made.gets("bob", [made.does("ann", "inc") for _ in range(DELIVERIES)])
    made.does("bob", f"read {DELIVERIES - 1}")
    told = require_soon(program, made.text())
    require(told["right"] == f"bob read {DELIVERIES}", told)
    require((told["would_be_right"], told["tried"]) == ([{"misses_line": 2 * DELIVERIES + 2}], 2), told)


def look_at_costs(kind, last, says):
    """A replica got all that another one did, and ends with a line that is wrong: two changes are tried."""
    made = History(kind, "ab")
    for number in range(1, OF_EACH + 1):
        made.does("a", UPDATES[kind].format(number, number - 1))
    made.gets("b", range(OF_EACH))
    made.does("b", last)
    with TemporaryDirectory() as folder:
        text = Path(folder) / f"{kind}.rah"
        text.write_bytes(made.text())
        for _ in range(TURNS):
            check, checked, *_ = costs([CHECK, "check"], text)
            explain, explained, page, status = costs([EXPLAIN, "explain"], text)
            require(status == 1, kind, last, status)
            if explain <= TIMES * check:
                break
    require(says in page and len(page) <= MOST_BYTES, kind, last, len(page), page[:500])
    require(explain <= TIMES * check, kind, "too slow", explain, check)
    require(explained <= TIMES_MEMORY * checked, kind, "takes too much memory", explained, checked)


def of_two_writers(kind, clock, late=None):
    """The text of a long history in which the second replica has one update with this clock, and the first one reads
    what no order explains behind the update with this number, if any."""
    made = History(kind, "ab")
    made.gets("b", [made.does("a", UPDATES[kind].format(number, number - 1)) for number in (1, 2)])
    made.does("b", CLOCKED[kind].format(clock))
    for number in range(3, LABELS):
        made.does("a", UPDATES[kind].format(number, number - 1))
        if number == late:
            made.does("a", f"read {WRONG[kind]}")
    return made.text()


def look_at_search(program, kind):
    """A violation by clocks at the beginning, and much later a read that no order explains: it is found by few
    questions. The cost is compared with a check of the same labels that holds."""
    late = LABELS * 9 // 10
    told = require_soon(program, of_two_writers(kind, 1, late), of_two_writers(kind, 3), TIMES_SEARCH)
    found = told["another_order"], told["explained_up_to"], told["unexplained_line"]
    require(found == (True, late, late + 6), kind, found)


def look_at_reversed(program):
    """A read that lists all elements the other way round, behind one that lists them as they are."""
    made = History("rga", "ab")
    for number in range(1, ELEMENTS + 1):
        made.does("a", f"after 0 {number} @{number}")
    made.gets("b", range(ELEMENTS))
    made.does("b", f"read {listed(range(ELEMENTS, 0, -1))}")
    made.does("b", f"read {listed(range(1, ELEMENTS + 1))}")
    told = require_soon(program, made.text(), times=TIMES_NEAREST)
    wanted = {"nearest": [*range(ELEMENTS, 0, -1)], "kept": 1, "undecided": []}
    require(told["possible"] == wanted, "nearest", told["possible"]["kept"], told["possible"]["undecided"])


def look_at_contested(program):
    """A set of which one replica adds each element while the other one removes it: a few are asked about, the wrong one
    first."""
    made = History("lwwset", "ab")
    for number in range(1, ELEMENTS + 1):
        added = made.does("a", f"add {number} @{2 * number}")
        removed = made.does("b", f"remove {number} @{2 * number + 1}")
        made.gets("a", [removed])
        made.gets("b", [added])
    made.does("b", f"read {ELEMENTS}")
    told = require_soon(program, made.text(), times=TIMES_SEARCH)
    asked = [*range(1, MOST_ASKED), ELEMENTS]
    wanted = {"listed": [], "undecided": asked, "unasked": [*range(MOST_ASKED, ELEMENTS)]}
    require(told["possible"] == wanted, "possible", told["possible"]["listed"], told["possible"]["undecided"])


def look_at_full(program):
    """One command more than there may be."""
    text = b"RAH 1 counter\nreplicas a\n" + b"verdict\n" * 1_048_576 + b"a inc\n"
    wrote, said, status = program(["explain", "--json"], text)
    require((said, status) == (b"line 1048579: full\n", 2), said, status)
    stop = Stop(text, said)
    stop.require_object(json.loads(wrote))
    page = program(["explain"], text)[0].decode()
    require(page == stop.page(json.loads(wrote)), page)


def looks(program):
    """What is called how, and looked at: a function and what it is given."""
    for kind in KINDS:
        yield f"a long history of {kind}", look_at_long, program, kind
    for kind in STAMPED:
        yield f"how far another order explains a {kind}", look_at_search, program, kind
    yield "a list that is reversed", look_at_reversed, program
    yield "a set of which each element is undecided", look_at_contested, program
    yield "a full text", look_at_full, program
    yield "a late report", look_at_late_report, program
    yield "many that lack", look_at_many_that_lack, program
    yield "how many changes are tried", look_at_each_try, program
    yield "how many deliveries are tried", look_at_deliveries_that_could_have_come, program
    ends = [(it, f"read {WRONG[it]}", b"none of the 2 changes that were tried explains it") for it in KINDS]
    ends += [(it, UPDATES[it].format(1, 0), f"and {OF_EACH - 4} labels before them".encode()) for it in STAMPED]
    for end in ends:
        yield f"what it costs that b {end[1]} of {end[0]}", look_at_costs, *end
