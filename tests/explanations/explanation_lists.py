"""What an explanation says of a list, by the definitions alone.

Of a cycle and of the line that would hold there may be several, so that the program's own are judged: each step of the
cycle is required by its label, no cycle is shorter, and the line holds with the same elements.
"""
from itertools import combinations

from assertions import require
from explanation_elements import elements_words
from list_order import edges_of

# The most steps of a cycle, and the most elements of one sort, that have a line each.
MOST_STEPS_SHOWN, MOST_ELEMENTS_SHOWN = 12, 3
RULE = "one order of all elements explains every read and every insertion"
# What is expected of an operation without another answer.
EXPECTED = {
    "insert": "neighbours that its replica has received, or 0 for none",
    "remove": "an element that its replica has received",
}


def is_by_order(case):
    return bool(case.fault) and case.monitor.kind == "list" and case.cause == "order"


def shown_by(words):
    """The elements that the line shows, in its order."""
    if words[1] == "insert":
        return [int(it) for it in words[2:5] if it != "0"]
    return [int(it) for it in words[2].split(",") if it != "-"] if words[1] in ("read", "part") else []


# The object.


def require_conflict(case, told):
    """Are these the members of the violation's conflict? They are kept for the page, which shows the same."""
    if not is_by_order(case):
        require(not {"cycle", "holds", "pairs"} & {*told}, "members of another violation", told)
        return
    require_cycle(case, told["cycle"])
    require(case.holds_with(case.before(), told["holds"]), "the line that would hold", told)
    require_same_elements(case.said(case.place), told["holds"])
    require(told["pairs"] == ("differ" if disagreement(case) else "agree"), "pairs", told)
    case.cycle, case.held = told["cycle"], told["holds"]


def require_cycle(case, cycle):
    labels = case.monitor.labels
    for edge in cycle:
        require((edge["before"], edge["after"]) in edges_of([labels[edge["label"]]]), "an edge", edge)
        require(edge["line"] == case.line_of(edge["label"]), "the line of an edge", edge)
    for edge, following in zip(cycle, [*cycle[1:], *cycle[:1]]):
        require(edge["after"] == following["before"], "no cycle", cycle)
    require(cycle and cycle[0]["label"] == len(labels) - 1, "the first edge", cycle)
    require(len(cycle) == shortest_cycle(case), "a cycle that is not the shortest", cycle)


def shortest_cycle(case):
    """The number of edges of a shortest cycle. Each has an edge of the violating label."""
    labels = case.monitor.labels
    all_edges = edges_of(labels)
    return min(1 + distance(all_edges, after, before) for before, after in edges_of(labels[-1:]))


def distance(edges, start, end):
    """The number of edges of a shortest way, or one that is greater than any if there is none."""
    reached, count = {start}, 0
    while end not in reached:
        more = {after for before, after in edges if before in reached} - reached
        if not more:
            return len(edges) + 1
        reached, count = reached | more, count + 1
    return count


def require_same_elements(said, holds):
    """Is it the violating line with its elements in another order? An insertion names its left neighbour alone."""
    said, holds = said.split(" "), holds.split(" ")
    require(said[:2] == holds[:2], "another operation", said, holds)
    if said[1] == "insert":
        require(holds[2:] == [*said[2:4], "0"], "another insertion", said, holds)
    else:
        require(sorted(shown_by(said)) == sorted(shown_by(holds)), "other elements", said, holds)


def disagreement(case):
    """The first label that shows two elements the other way round than the violating one, with these elements in its
    order; else None. Of its elements the first that is the second of such a pair, and of those before it the one that
    the violating label shows last."""
    own = shown_by(case.fields(case.place))
    last = {it: at for at, it in enumerate(own)}
    reversed_pairs = {(late, early) for early, late in combinations(own, 2)}
    for label, at in enumerate(case.places):
        shown = shown_by(case.fields(at))
        for place, second in enumerate(shown):
            firsts = [it for it in shown[:place] if (it, second) in reversed_pairs]
            if firsts:
                return label, max(firsts, key=last.get), second
    return None


# The page: each row as its head, its facts, and if it ends with a label this and the words behind it.


def rows_of_order(case):
    for number, edge in enumerate(case.cycle[:MOST_STEPS_SHOWN]):
        facts = f"{edge['before']} before {edge['after']}: "
        yield "" if number else "cycle", facts, edge["label"]
    others = len(case.cycle) - MOST_STEPS_SHOWN
    if others > 0:
        yield "", f"and {others} more step{'s' if others > 1 else ''} back to the first element"
    yield "so", f"{case.cycle[0]['before']} would be before itself"
    yield "one that holds", case.held
    for edge in case.cycle[:MOST_STEPS_SHOWN]:
        at = next(places_of_removals(case, edge["before"]), None)
        if at is not None:
            yield "removed", f"{edge['before']}, by {case.fields(at)[0]} in line {at + 3}; its place still counts"
    yield from rows_of_pairs(case)
    yield "rule", RULE


def rows_of_pairs(case):
    found = disagreement(case)
    if not found:
        yield "pairs", "no two lines show two elements both ways; programs that transform operations"
        yield "", "(OT) may do this by the weak list specification, a CRDT may not"
        return
    label, first, second = found
    at = case.places[label]
    own = f", line {case.place + 3}" if at != case.place else " and"
    yield "pairs", f"line {at + 3} shows {first} before {second}{own} {second} before {first}"


def places_of_removals(case, element):
    """Where labels before the violating one remove the element."""
    for at in case.places[:-1]:
        if case.fields(at)[1:] == ["remove", str(element)]:
            yield at


def arrival_words(case, label):
    """How the violating label's replica came to see the label, or that it does not see it."""
    at = case.arrival(case.name, label)
    if label in case.lacked_by_violating():
        return f", which was not delivered to {case.name}"
    if at is not None:
        return f", which was delivered to {case.name} in line {at + 3}"
    is_own = case.maker(label) == case.name
    return ", which its own replica issued" if is_own else ", which its replica joined with"


def insertion_before(case, element):
    """The earlier label that inserts the element, or None."""
    return next((it for it in case.insertions(element) if it != len(case.places) - 1), None)


def rows_of_query(case):
    right, words = case.right(), case.fields(case.place)
    if right is None:
        yield "expected", EXPECTED[words[1]]
        yield from rows_of_names(case, words)
        return
    yield "expected", right
    reported, wanted = shown_by(words), shown_by(right.split(" "))
    missing, more = sorted({*wanted} - {*reported}), sorted({*reported} - {*wanted})
    for element in missing[:MOST_ELEMENTS_SHOWN]:
        label = insertion_before(case, element)
        yield "left out", f"{element}, inserted by ", label, arrival_words(case, label)
    yield from row_of_others(missing)
    for element in more[:MOST_ELEMENTS_SHOWN]:
        yield row_of_shown(case, element)
    yield from row_of_others(more)
    repeated = sorted({it for it in reported if reported.count(it) > 1})
    if repeated:
        yield "repeats", f"{elements_words(repeated)}: each element may be shown once"


def row_of_shown(case, element):
    """The label that removes the element, of those that are seen; or why it is not in the replica's list."""
    lacked = case.lacked_by_violating()
    removals = [case.places.index(at) for at in places_of_removals(case, element)]
    seen = next((it for it in removals if it not in lacked), None)
    if seen is not None:
        return "shows", f"{element}, removed by ", seen, arrival_words(case, seen)
    return row_of_absent(case, "shows", str(element), element)


def row_of_absent(case, head, facts, element):
    label = insertion_before(case, element)
    if label is None:
        return head, f"{facts}, which no label inserts"
    return head, f"{facts}, inserted by ", label, arrival_words(case, label)


def row_of_others(elements):
    others = len(elements) - MOST_ELEMENTS_SHOWN
    if others > 0:
        yield "", f"and {others} more element{'s' if others > 1 else ''}"


def rows_of_names(case, words):
    """The elements that the operation names and its replica has not received."""
    roles = {"insert": [(2, " as its left neighbour"), (4, " as its right neighbour")], "remove": [(2, "")]}
    for place, role in roles[words[1]]:
        label = insertion_before(case, int(words[place]))
        if words[place] != "0" and (label is None or label in case.lacked_by_violating()):
            yield row_of_absent(case, "names", f"{words[place]}{role}", int(words[place]))


def rows_of_update(case):
    words = case.fields(case.place)
    own = int(words[3]) if words[1] == "insert" else int(words[2])
    if own == 0:
        yield "not possible", "0 is no element: it is never inserted and never removed"
        return
    label = insertion_before(case, own)
    if words[1] == "insert" and label is not None:
        yield "duplicate", f"element {own}, also inserted by ", label
    named = list(dict.fromkeys([words[2], words[4]] if words[1] == "insert" else [words[2]]))
    for element in map(int, named):
        if element and insertion_before(case, element) is None:
            other = "other " if words[1] == "insert" and element == own else ""
            yield "missing", f"element {element}, which no {other}label inserts"
