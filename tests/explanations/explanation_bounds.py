"""Histories at the bounds of what an explanation shows: one below each of them, at it, and above it.

The bounds are the constants of ra_explain, ra_explain_syntax_errors, ra_explain_text and ra_explain_diagram; those of
a text with a fault are in explanation_faults.py. The histories are small, so that the model (tests/support/model.py)
explains each of them.
"""
from itertools import permutations

from expected import UPDATES
from explanation_case import listed
from model import KINDS

NAMES = [f"n{it}" for it in range(64)]


def text_of(kind, names, lines, form=2):
    return "".join(f"{it}\n" for it in [f"RAH {form} {kind}", f"replicas {' '.join(names)}", *lines])


def additions(count, name="a"):
    """Elements 1, 2 .. of an LWW set, added by one replica."""
    return [f"{name} add {it} @{it}" for it in range(1, count + 1)]


def insertions(count, name="a"):
    """Elements 1, 2 .. of a list, each behind the one before."""
    return [f"{name} after {it - 1} {it} @{it}" for it in range(1, count + 1)]


def of_length(front, length):
    """The line with a list that rises and fills it up to this length."""
    room = length - len(front)
    numbers, last = [], 10
    while room - len(listed(numbers)) > 12:
        numbers.append(last)
        last += 1
    rest = room - len(listed([*numbers, ""])) if numbers else room
    return front + listed([*numbers, "9" * rest])


# Words.


def lists_of_elements():
    """As many elements are missing, or too many, as are printed of a list; in a set, a tagged set and a removal."""
    for count in range(1, 12):
        yield text_of("lwwset", "a", [*additions(count), "a read 70"])
        yield text_of("lwwset", "a", [f"a read {listed(range(1, count + 1))}"])
        yield text_of("orset", "a", [*(f"a add {it} #{it}" for it in range(count)), "a read 70"])
        yield text_of("orset", "a", [*(f"a add 4 #{it}" for it in range(count)), "a remove 4 #70"])


def lists_that_differ():
    """Two lists that differ at each element about the first one behind which both are printed again, of each length."""
    for length in (1, 6, 8, 9, 10, 12, 13, 14, 15, 17):
        whole = list(range(1, length + 1))
        for place in {it for it in (0, 1, 6, 7, 8, 9, 10, length - 1, length) if it <= length}:
            others = [whole[:place] + [70] + whole[place:], whole[:place] + whole[place + 1 :], whole[:place]]
            for other in others:
                yield text_of("rga", "a", [*insertions(length), f"a read {listed(other)}"])


def labels_above_a_clock():
    """Labels that a violating write sees: its own, delivered ones, and those that it joined with."""
    for count in range(1, 7):
        writes = [f"a write {it} @{it + 9}" for it in range(count)]
        yield text_of("register", "ab", [*writes, *(f"b got {it}" for it in range(count)), "b write 7 @1"])
        yield text_of("register", "ab", [*writes, "join c a", "c write 7 @1"])
        yield text_of("register", "ab", [*writes, "a write 7 @1"])
        some = [f"{name} write {it} @{it + 9}" for it, name in enumerate(NAMES[:count])]
        gets = [f"b got {it}" for it in range(count)]
        yield text_of("register", ["b", *NAMES[:count]], [*some, *gets, "b write 7 @1"])


def remedies():
    """As many changes help as are printed: of what was delivered, and of what could have been."""
    for count in range(1, 9):
        names = NAMES[:count]
        made = [f"{it} inc" for it in names]
        yield text_of("counter", ["b", *names], [*made, *(f"b got {it}" for it in range(count)), f"b read {count - 1}"])
        yield text_of("counter", ["b", *names], [*made, "b read 1"])
        yield text_of("counter", ["b", *names], [*made, "b read 7"])


def rejected_lines():
    """As many lines are rejected as are printed, in a history that passes and in one that does not."""
    for count in range(8, 14):
        yield text_of("counter", "ab", ["a inc", *["a got 0"] * count])
        yield text_of("counter", "ab", ["a inc", *["a got 9"] * count, "a read 9"])


def long_lines():
    """Lines of about as many bytes as are printed of one: reported, expected, rejected, lacking, and as remedies."""
    for length in (*range(60, 78), 100):
        read = of_length("a read ", length)
        yield text_of("lwwset", "a", [*additions(30), read])
        yield text_of("lwwset", "a", [f"{read} @1", *["a read 1,1"] * (length - 60), of_length("b read ", 90)])
    for width in range(60, 80):
        line = of_length("a remove 4 #", width)
        yield text_of("orset", "ab", ["a add 4 #1", line])
        identifiers = list(range(10, 10 + (width - 12) // 3))
        made = [f"a add 4 #{it}" for it in identifiers]
        front = "a remove 4 #"
        yield text_of("orset", "ab", [*made, f"{front}{listed(identifiers)}", "b read 4"])
        yield text_of("orset", "ab", [*made, f"{front}{listed(identifiers)}"])


def words_after_a_label():
    """Labels of each width with words after them, which leave more or less room for the label's line."""
    for length in (1, 8, 16):
        one, two, three = (f"{it}{'x' * 15}"[:length] for it in "abc")
        for width in range(30, 80, 3):
            line = of_length(f"{one} remove 4 #", width)
            identifiers = line.rpartition("#")[2].split(",")
            made = [*(f"{one} add 4 #{it}" for it in identifiers), line]
            gets = [f"{two} got {it}" for it in range(len(made))]
            last = len(made) - 1
            yield text_of("orset", [one, two], [*made, f"{two} got {last}", *gets, f"{two} read 4"])
            yield text_of("orset", [one, two], [*made, *gets[:-1], f"{two} read -", gets[-1], f"{two} read 4"])
            others = [f"{one} inc", *gets, f"{two} add 4 #1", f"{three} read 4"]
            yield text_of("orset", [one, two, three], [*made, *others])
        for number in (7, 4_294_967_295):
            writes = [f"{one} write {number} @9", f"{two} got 0", f"{two} got 0", f"{two} write {number} @1"]
            yield text_of("register", [one, two], writes)
            insertions = [f"{one} after 0 {number} @{number}", f"{two} after {number} 3 @2", f"{two} read 3"]
            yield text_of("rga", [one, two], insertions)
            yield text_of("rga", [one, two], [insertions[0], f"{two} after {number} 3 @{number}", f"{two} read 3"])
            yield text_of("rga", [one, two], [insertions[0], f"{two} after 0 {number} @2"])


def rejections():
    """Each reason for which a line is rejected, also where nothing is accepted."""
    texts = {
        "counter": "z inc, join z y, a write 1 @1, a inc @0, a got 0, a inc, a got 0, b got 1, join b a, a read 1 @2",
        "register": "a write 1, a write 1 @0, a write 1 @1, a write 2 @1, a read none @1, b add 4, b remove 4 #1",
        "lwwset": "a add 4 #1, a remove 4 #1, a remove 4 #-, a add 4 @1, a inc, a add 5, a remove 5 @1",
        "orset": "a add 4, a remove 4 @1, a add 4 #1, b add 4 #1, a inc, a after 0 1 @1, b add 4 @1, b got 7",
        "rga": "a after 0 1 @1, a after 1 2 @2, b got 1, a remove 2 #1, a add 1 @3, b after 0 2, b after 0 2 @0",
    }
    lists = {"lwwset": ["a read 2,1", "a read 4,4"], "orset": ["a read 2,1", "a remove 4 #2,1"]}
    for kind, lines in texts.items():
        lines = [*lines.split(", "), *lists.get(kind, [])]
        yield text_of(kind, "ab", lines)
        yield from (text_of(kind, "ab", [it]) for it in lines)
    seen = ["a inc", "join b a", "c got 0", *(f"{it} got 0" for it in "abc"), "b inc", "b got 1", "join d b", "d got 1"]
    yield text_of("counter", "ac", [*seen, "a read 1", "a got 2"])
    yield text_of("counter", NAMES, ["n0 inc", "join z n0", "join n1 n0"])
    yield text_of("counter", "ab", ["a read 0", "b got 0"])


def empty_histories():
    """No label: without a line, and with lines that are no operation."""
    for lines in ([], ["verdict"], ["join c a", "verdict"], ["a got 0", "z inc"]):
        yield text_of("orset", "ab", lines)


def replicas_that_are_seen():
    """As many replicas with updates as have a line each at a violation, and as many that lack some as do in a pass."""
    for count in (*range(6, 13), 63):
        names = NAMES[:count]
        made = [f"{it} inc" for it in names]
        yield text_of("counter", ["b", *names], [*made, "b read 9"])
        yield text_of("counter", ["b", *names], [*made, "b inc", "b read 9"])
        yield text_of("counter", names, made)
        yield text_of("counter", names, [*made, *(f"{names[-1]} got {it}" for it in range(count - 1))])
        yield text_of("counter", names, [f"{names[0]} inc", *(f"{it} got 0" for it in names[1 : count // 2])])


def missing_insertions():
    """A list is read that has an update without the element it needs, one of many that were inserted in any order."""
    for line in ("a after 5 5 @1", "a after 6 5 @1", "a remove 5"):
        yield text_of("rga", "ab", ["b after 0 4 @9", line])
    for order in permutations((3, 9, 5, 7)):
        made = [f"a after 0 {element} @{clock}" for clock, element in enumerate(order, 1)]
        for needed in order:
            for update in (f"b after {needed} 1 @9", f"b remove {needed}"):
                yield text_of("rga", "ab", [*made, update, "b read -"])


# Pictures.


def histories_of_each_length():
    """As many entries as are drawn of a short history, and one more; of a longer one as many as are drawn."""
    for count in (*range(1, 23), 40):
        yield text_of("counter", "ab", [*["a inc"] * count, "a read 0"])
        gets = [it for number in range(count // 2) for it in ("a inc", f"b got {number}")]
        yield text_of("counter", "ab", ["a inc"] * (count % 2) + gets + ["b read 70"])
        others = [*["a got 9", "verdict"] * (count // 2), *["b inc"] * count]
        yield text_of("counter", "ab", ["a inc", *others, "b read 70"])


def updates_of_one_element():
    """Many updates of the element at which the answers differ, of which the latest are drawn, each with its arrival."""
    for count in range(1, 6):
        others = [f"b add {20 + it} @{90 + it}" for it in range(24)]
        made = [f"a add 7 @{it + 1}" for it in range(count)]
        gets = [f"b got {it}" for it in range(count)]
        yield text_of("lwwset", "ab", [*made, *gets, *others, f"b read {listed(range(20, 44))}"])
        yield text_of("lwwset", "ab", [*made, *others, f"b read {listed([7, *range(20, 44)])}"])
        inserted = [f"a after 0 {it + 1} @{it + 1}" for it in range(count)]
        after = [f"b after 0 {20 + it} @{90 + it}" for it in range(24)]
        right = [*range(43, 19, -1), *range(count, 0, -1)]
        for wrong in (right[:-1], right[:-2] + right[-1:], [70, *right], right[1:]):
            yield text_of("rga", "ab", [*inserted, *gets, *after, f"b read {listed(wrong)}"])


def columns():
    """Each number of columns up to the most, and some more replicas; names of each length, and words of each width."""
    for count in range(1, 12):
        for length in range(1, 17):
            names = [f"{'abcdefghijklmnop'[it]}{'x' * 15}"[:length] for it in range(count)]
            updates = [f"{it} inc" for it in names[1:8]]
            gets = [f"{names[0]} got {it}" for it in range(len(updates))]
            if length % 4 < 2 or length in (7, 10, 11):
                yield text_of("counter", names, [*updates, *gets, f"{names[0]} read {'9' * (length % 10 + 1)}"])


def words_of_each_width():
    """Words of a row of about as many letters as a column has, and as a drawing shows beside one."""
    for count in range(1, 9):
        names = NAMES[:count]
        width = min(28, 84 // count)
        for room in {*range(width - 3, width + 4), *range(22, 28)}:
            number = max(room - len("1? read "), 1)
            read = listed([1, *[10 + it for it in range(number)]])[:number].rstrip(",")
            made = [f"{names[-1]} add {1 + it} @1" for it, name in enumerate(names[:-1])][:1]
            others = [f"{it} add {70 + at} @1" for at, it in enumerate(names[:-1])]
            yield text_of("lwwset", names, [*others, *made, f"{names[0]} read {read}"])


def arrivals():
    """Deliveries of a label are rejected before it arrives and after: it arrives by the line that was accepted."""
    head, fill = ["a write 1 @8", "a write 2 @9"], [f"b write {it} @{20 + it}" for it in range(24)]
    odd = [["b got 1", "b got 7", "b got 0", "b got 1"], ["b got 0", "b got 1", "b got 1", "b got 0"]]
    odd += [["b got 2", "b got 0", "a write 5 @10", "b got 1", "b got 1", "b got 2", "b got 2"]]
    for lines in odd:
        made = [*head, *lines]
        yield text_of("register", "ab", [*made, "b write 3 @1"])
        yield text_of("register", "ab", [*made, "b read 1"])
        yield text_of("register", "ab", [*made, *fill, "b write 3 @1"])
        yield text_of("register", "ab", ["b got 0", *made, *fill[:20], "b read 1"])
        others = [*head, "c got 0", "c got 1", *lines]
        yield text_of("register", "abc", [*others, "b write 3 @1"])
        yield text_of("register", "abc", [*others, *fill, "b write 3 @1"])
        pairs = [it.replace("write", "add") for it in [*made, *fill]]
        yield text_of("lwwset", "ab", [*pairs, f"b read {listed(it for it in range(24))}"])
        yield text_of("lwwset", "ab", ["b got 1", "b got 0", *pairs, "b read 1"])
    for early in (["b got 1"], ["b got 1", "b got 1"], []):
        made = ["a after 0 1 @1", "a after 1 2 @2", *early, "b got 0", *early, "b got 1", "b got 1"]
        own = [f"b after 2 {30 + it} @{30 + it}" for it in range(22)]
        right = [1, 2, *range(51, 29, -1)]
        for wrong in (right[1:], [1, *right[2:]], [2, 1, *right[2:]]):
            yield text_of("rga", "ab", [*made, *own, f"b read {listed(wrong)}"])
        yield text_of("rga", "ab", [*made, *own, "b after 1 31 @70"])


def joins():
    """Replicas that join: as the first command, later, from one that joined, and so that a column begins below."""
    for kind in KINDS:
        first, second = UPDATES[kind].format(1, 0), UPDATES[kind].format(2, 1)
        wrong = {"counter": "read 70", "register": "read 70"}.get(kind, "read 70,71")
        for lines in (
            ["join c a", f"a {first}", f"c {wrong}"],
            [f"a {first}", "join c a", "join d c", f"c {second}", "a got 1", f"d {wrong}"],
            [f"a {first}", "join c a", "c got 0", "join c a", "join d nobody", "a got 9", f"c {wrong}"],
        ):
            yield text_of(kind, "ab", lines)
            yield text_of(kind, "ab", [f"b {UPDATES[kind].format(5, 0)}", *["verdict"] * 20, *lines])


# Lists.


def free_insertions(count):
    """Elements 1, 2 .. of a list whose neighbours are not reported."""
    return [f"a insert 0 {it} 0" for it in range(1, count + 1)]


def cycles_of_elements():
    """As many steps of a cycle as have a line each; of its elements one is removed, or all that are read no more."""
    for count in (2, 11, 12, 13, 14):
        parts = [f"a part {it},{it % count + 1}" for it in range(1, count + 1)]
        removals = [f"a remove {it}" for it in range(2, count)]
        for removed in ([], removals[:1], removals):
            yield text_of("list", "a", [*free_insertions(count), *parts[:-1], *removed, parts[-1]])


def pairs_of_elements():
    """Two lines show two elements both ways, or an insertion does so itself, or none does."""
    made = free_insertions(5)
    reads = ["a part 3,4,2", "a read 5,3,4,2,1", "a part 1,5", "a read 2,1,3,4,5"]
    for line in [*reads, "a insert 4 6 2", "a insert 3 6 3"]:
        yield text_of("list", "ab", [*made, "a part 2,3", "a part 1,2,4", line])
        yield text_of("list", "ab", [*made, "a part 2,3", "a insert 3 7 5", "a part 5,7,4", "a remove 7", line])


def elements_of_a_list():
    """As many elements are left out, not received, removed or repeated as have a line each or are on one line."""
    for count in (1, 3, 4, 5, 8, 9, 10):
        made, elements = free_insertions(count), range(1, count + 1)
        gets = [f"b got {it}" for it in range(count)]
        for name, before in (("a", []), ("b", []), ("b", gets), ("c", ["join c a"])):
            yield text_of("list", "ab", [*made, *before, f"{name} read -"])
            yield text_of("list", "ab", [*made, *before, f"{name} read {listed(range(3, count + 5))}"])
            yield text_of("list", "ab", [*made, *before, f"{name} part {listed([*elements, *elements])}"])
            yield text_of("list", "ab", [*made, *before, f"{name} insert {count} 99 1"])
            yield text_of("list", "ab", [*made, *before, f"{name} remove {count}"])
        removed = [f"a remove {it}" for it in elements]
        yield text_of("list", "ab", [*made, *removed, f"a read {listed(elements)}"])
        yield text_of("list", "ab", [*made, *gets, *removed, f"b got {count}", f"b part {listed(elements)}"])


def updates_of_a_list():
    """An element that is inserted again, 0, and neighbours that no label or only the own one inserts."""
    insertions_of_3 = ["insert 7 3 8", "insert 7 3 7", "insert 3 3 0"]
    for line in ["insert 0 1 0", "insert 0 0 0", "remove 0", "remove 7", *insertions_of_3]:
        yield text_of("list", "ab", ["a insert 0 1 0", f"a {line}"])
        yield text_of("list", "ab", ["a insert 0 1 0", *["verdict"] * 20, f"b {line}"])


SORTS = [
    lists_of_elements,
    lists_that_differ,
    labels_above_a_clock,
    remedies,
    rejected_lines,
    long_lines,
    words_after_a_label,
    rejections,
    empty_histories,
    replicas_that_are_seen,
    missing_insertions,
    histories_of_each_length,
    updates_of_one_element,
    columns,
    words_of_each_width,
    arrivals,
    joins,
    cycles_of_elements,
    pairs_of_elements,
    elements_of_a_list,
    updates_of_a_list,
]
