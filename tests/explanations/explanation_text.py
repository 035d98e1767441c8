"""The words of an explanation, line by line, as the model (tests/support/model.py) has its facts.

Only the sentences are the program's own: line numbers, labels, answers, counts and the number of tries are worked out
here from the text, so that each fact that a page states is compared.
"""
import itertools

import model
from explanation_case import element_of
from explanation_elements import BEFORE, FAR, elements_words, first_difference
from explanation_lists import is_by_order, rows_of_order, rows_of_query, rows_of_update
from explanation_certificates import rows_of_claims
from explanation_orders import words_of_list, words_of_orders
from explanation_possible import row_of_possible
from explanation_unordered import EXPECTED, rows_of_read
from explanation_unordered import REASONS as REASONS_OF_READS

# A line has at most 100 characters; of a longer one the first 98 are printed and two points.
WIDEST, CUT = 100, 98
# The number of characters before the facts of a line.
HEAD = 16
# The most bytes of a command's line, labels above a clock, and remedies that are printed.
MOST_BYTES_OF_A_LINE, MOST_ABOVE, MOST_REMEDIES = 72, 3, 5
# Of a label's line at least this number of bytes is printed, or none, where the words after it leave little room.
LEAST_BYTES_OF_A_LINE = 8
# The most replicas that have a line each: at a violation, and of a pass. And the most rejected lines.
MOST_SEEN, MOST_LACKING, MOST_REJECTED = 8, 10, 10
REASONS = {
    "query": "its result does not follow from the updates that it sees.",
    "order": "its clock is not greater than each clock that it sees.",
    "update": "it cannot be applied at its position in the order.",
}
REASON_OF_A_LIST = "no single order explains it with the lines before."
REJECTIONS = {
    "unknown-replica": "it names a replica that neither line 2 nor a join names",
    "bad-list": "the list is not strictly increasing",
    "stamp-unwanted": "this operation may not have a clock",
    "unknown-label": "no operation has this label so far",
    "not-an-update": "the label is a query: queries are not delivered",
    "replica-there": "the replica exists already",
    "too-many-replicas": "there are 64 replicas, and no more may join",
}
# Why an operation of another kind is rejected, where it is one of a set in the history of the other sort of sets.
OPERATIONS = {
    "counter": "a counter's operations are inc, dec and read",
    "register": "a register's operations are write and read",
    "lwwset": "an LWW set's operations are add, remove and read",
    "orset": "an OR-Set's operations are add, remove and read",
    "rga": "a list's operations are after, remove and read",
    "list": "a list's operations are insert, remove, read and part",
    "any": "the operations of any type are update and read",
    "mvregister": "a multi-value register's operations are write and read",
}
OTHER_SETS = {
    ("orset", False): "an OR-Set's add and remove need an identifier, as add 4 #1",
    ("lwwset", True): "an LWW set's operations have a clock, as @1, and no identifier",
}
# The facts of these rows of a list are a line, of which a long one is cut.
WITH_A_LINE = ("expected", "one that holds")
# These lines are printed by their number alone.
WITHOUT_THEIR_LINE = ("unknown-replica", "too-many-replicas")


def headed(head, facts):
    return f"{head:{HEAD}}{facts}"


def counted(count, one, several):
    return f"{count} {one if count == 1 else several}"


def cut(line):
    return line if len(line) <= WIDEST else f"{line[:CUT]}.."


def act(line):
    """The line, or the front of a long one."""
    return line if len(line) <= MOST_BYTES_OF_A_LINE else f"{line[:MOST_BYTES_OF_A_LINE]} .."


def with_label(case, front, label, behind=""):
    """The line with the label between these words. Its own line is printed as far as the words behind leave room."""
    place = case.places[label]
    said, named = case.said(place), f"label {label} (line {place + 3}"
    room = WIDEST - len(f"{front}{named}: ){behind}")
    quote = said
    if len(said) > min(room, MOST_BYTES_OF_A_LINE):
        most = min(room - len(" .."), MOST_BYTES_OF_A_LINE)
        quote = f"{said[:most].rstrip()} .." if most >= LEAST_BYTES_OF_A_LINE else ""
    return f"{front}{named}{': ' if quote else ''}{quote}){behind}"


# A pass.


def words_of_pass(case):
    labels = len(case.monitor.labels)
    yield ""
    if labels:
        yield f"{counted(labels, 'label holds', 'labels hold')}: one order explains all results."
    else:
        yield "no operation was accepted, so nothing was checked."
    yield ""
    lacks = [(name, case.lacked(replica)) for replica, name in enumerate(case.monitor.names)]
    for name, lacked in lacks[:MOST_LACKING]:
        if lacked:
            updates = counted(len(lacked), "update was not delivered,", "updates were not delivered, the oldest")
            yield with_label(case, headed("at the end", f"{name}: {updates} "), lacked[0])
        else:
            yield headed("at the end", f"{name}: every update was delivered")
    others = sum(bool(lacked) for _, lacked in lacks[MOST_LACKING:])
    if others:
        yield headed("", counted(others, "more replica misses updates", "more replicas miss updates"))
    yield from words_of_rejections(case)


def words_of_rejections(case):
    for place in case.refused[:MOST_REJECTED]:
        word, *missing = case.replies[place].split(" ")[1:]
        says = "" if word in WITHOUT_THEIR_LINE else f": {act(case.said(place))}"
        yield headed("rejected", f"line {place + 3}{says}")
        spelled = " ".join([word, *missing])
        yield line_of_reason(case, place, headed("", f"{spelled}: "), word, missing)
    others = len(case.refused) - MOST_REJECTED
    if others > 0:
        yield headed("rejected", counted(others, "more line", "more lines"))


def line_of_reason(case, place, front, word, missing):
    words = case.fields(place)
    if word == "not-causal":
        return with_label(case, front, int(missing[0]), " has to be delivered first")
    if word in ("stamp-taken", "id-taken"):
        what, taken = ("clock", "@") if word == "stamp-taken" else ("identifier", "#")
        return with_label(case, f"{front}its {what} is used by ", taken_by(case, words, taken))
    if word == "stamp-missing":
        return front + ("the clock is 0: clocks begin at 1" if "@0" in words else "a clock is missing, for example @1")
    if word == "wrong-kind":
        is_tagged = any(it.startswith("#") for it in words)
        sort = (case.monitor.kind, is_tagged) if words[1] in ("add", "remove") else None
        return front + OTHER_SETS.get(sort, OPERATIONS[case.monitor.kind])
    if word == "already-seen":
        return front + how_seen(case, words[0], int(words[2]))
    return front + REJECTIONS[word]


def how_seen(case, name, label):
    if case.maker(label) == name:
        return "the replica issued the label itself"
    is_delivered = case.arrival(name, label) is not None
    if is_delivered:
        return "the label was delivered to the replica before"
    return "the replica had the label when it joined"


def taken_by(case, words, sign):
    """The label that carries the clock, or the identifier, of the line with these words."""
    mark = next(it for it in words[::-1] if it.startswith(sign))
    for label, at in enumerate(case.places):
        others = case.fields(at)
        if mark in others and (others[0] == words[0] if sign == "@" else others[1] == "add"):
            return label
    raise AssertionError("nothing takes it", words)


# A violation.


def words_of_violation(case):
    label = len(case.monitor.labels) - 1
    yield ""
    reason = REASON_OF_A_LIST if is_by_order(case) else REASONS_OF_READS.get(case.monitor.kind, REASONS[case.cause])
    yield f"line {case.place + 3} is a violation (label {label}): {reason}"
    yield ""
    yield headed("reported", act(case.said(case.place)))
    sorts = {"query": words_of_query, "order": words_of_order, "update": words_of_update}
    reasons = iter(words_of_a_list(case) if case.monitor.kind == "list" else sorts[case.cause](case))
    if case.opinion:
        yield from itertools.islice(reasons, 1 if case.cause == "query" else 0)
        yield headed("other orders", words_of_orders(case, case.opinion))
        if case.possible is not None:
            yield headed(*row_of_possible(case))
        yield from (headed(*row) for row in rows_of_claims(case))
        if case.one_list is not None:
            yield headed("one list", words_of_list(case))
    yield from reasons
    yield from words_of_what_it_sees(case)
    yield from words_of_remedies(case)
    yield from words_of_rejections(case)


def words_of_a_list(case):
    rows = {"query": rows_of_query, "order": rows_of_order, "update": rows_of_update}
    for head, facts, *label in rows[case.cause](case):
        if label:
            yield with_label(case, headed(head, facts), *label)
        else:
            yield headed(head, act(facts) if head in WITH_A_LINE else facts)


def words_of_query(case):
    right = case.right()
    if case.monitor.kind in EXPECTED:
        yield headed("expected", EXPECTED[case.monitor.kind])
        for head, facts, *label in rows_of_read(case):
            yield with_label(case, headed(head, facts), *label) if label else headed(head, facts)
        return
    if right is None:
        yield headed("expected", "no result: the updates that it sees cannot be applied by themselves")
        yield from words_of_unmet(case)
        return
    yield headed("expected", act(right))
    answers = [answer_of(it.split(" ")) for it in (case.said(case.place), right)]
    if case.monitor.kind == "rga":
        yield from words_of_two_lists(*answers)
    elif case.monitor.kind in ("lwwset", "orset"):
        yield from words_of_two_sets(*answers)


def answer_of(words):
    """The list at the end of a read or of a removal with identifiers."""
    return [int(it) for it in words[-1].lstrip("#").split(",") if it not in ("-", "none")]


def words_of_two_lists(reported, right):
    place = first_difference(reported, right)
    was, wanted = (it[place] if place < len(it) else "the end of the list" for it in (reported, right))
    yield headed("differs", f"at position {place + 1}: got {was}, expected {wanted}")
    if place >= FAR:
        yield headed("got there", f".. {elements_words(reported[place - BEFORE:])}")
        yield headed("expected there", f".. {elements_words(right[place - BEFORE:])}")


def words_of_two_sets(reported, right):
    missing, more = ([it for it in one if it not in other] for one, other in ((right, reported), (reported, right)))
    if missing:
        yield headed("missing", elements_words(missing))
    if more:
        yield headed("unexpected", elements_words(more))


def words_of_unmet(case):
    """The first update in the named order that is seen while the one that inserts the element it needs is not."""
    lacked = case.lacked_by_violating()
    lines = {it: case.fields(case.places[it]) for it in lacked}
    inserted = {element_of(words): it for it, words in lines.items() if words[1] == "after"}
    for label in model.named_labels(case.monitor.labels):
        needed = case.needed_by(label.number)
        if label.number not in lacked and needed in inserted and label.operation.update:
            yield with_label(case, headed("it sees", ""), label.number)
            yield with_label(case, headed("but not", ""), inserted[needed], f", which inserts {needed}")
            return


def words_of_order(case):
    """The latest labels that it sees and whose stamps are above its own, and how they came to be seen."""
    own, labels = case.violating, case.monitor.labels
    above = [it for it in sorted(own.sees, reverse=True) if labels[it].stamp and labels[it].stamp > own.stamp]
    for label in above[:MOST_ABOVE]:
        arrival = case.arrival(case.name, label)
        how = "its replica joined with"
        if arrival is not None:
            how = f"was delivered to {case.name} in line {arrival + 3}"
        elif labels[label].replica == own.replica:
            how = "its own replica issued"
        yield with_label(case, headed("but sees", ""), label, f", which {how}")
    others = len(above) - MOST_ABOVE
    if others > 0:
        yield headed("", f"and {counted(others, 'label', 'labels')} before them")
    yield headed("rule", "a clock, and on a tie its replica, is above all that its label sees")


def words_of_update(case):
    label, words = len(case.monitor.labels) - 1, case.fields(case.place)
    if element_of(words) == 0:
        yield headed("not possible", "0 is the start of the list: it is never inserted and never removed")
        return
    head, how, element, found = "duplicate", "also inserted by", element_of(words), []
    if words[1] == "after":
        found = [it for it in case.insertions(element) if it != label]
    if not found:
        element = case.needed_by(label)
        head, how = "missing", "which comes later in the order, by"
        found = [it for it in case.insertions(element) if it != label]
    for other in found:
        yield with_label(case, headed(head, f"element {element}, {how} "), other)
    if not found:
        other = "other " if element == element_of(words) and words[1] == "after" else ""
        yield headed(head, f"element {element}, which no {other}label inserts")


def words_of_what_it_sees(case):
    own, labels, lacked = case.violating, case.monitor.labels, case.lacked_by_violating()
    lines = []
    for replica, name in enumerate(case.monitor.names):
        updates = [it.number for it in labels[:-1] if it.operation.update and it.replica == replica]
        sees = sum(it in own.sees for it in updates)
        if updates:
            lines.append(headed("sees", f"{sees} of {counted(len(updates), 'update', 'updates')} of {name}"))
    yield from lines[:MOST_SEEN]
    if len(lines) > MOST_SEEN:
        yield headed("", f"and some of {len(lines) - MOST_SEEN} more replicas, which are not listed here")
    if lacked:
        others = f", and {len(lacked) - 1} before it" if len(lacked) > 1 else ""
        yield with_label(case, headed("not delivered", ""), lacked[-1], others)


def words_of_remedies(case):
    found, tried = case.remedies(), len(case.changes())
    for change, head in zip(found[:MOST_REMEDIES], ["explained if"] + ["or"] * MOST_REMEDIES):
        yield line_of_remedy(case, headed(head, ""), change)
    others = len(found) - MOST_REMEDIES
    if others > 0:
        changes = f"one of {others} other changes" if others > 1 else "1 other change"
        yield headed("or", f"with {changes} of this kind")
    if any("misses_line" in it for it in found[:MOST_REMEDIES]):
        yield headed("", "updates that depend on a label are then not delivered either")
    if tried and not found:
        yield line_of_tries(tried)


def line_of_tries(tried):
    several = f"none of the {tried} changes that were tried explains it"
    return headed("tried", several if tried > 1 else "the one change that was tried does not explain it")


def line_of_remedy(case, head, change):
    [(sort, number)] = change.items()
    if sort == "gets":
        return with_label(case, head, number, f" had been delivered to {case.name}")
    if sort == "comes_before_line":
        return f"{head}line {case.place + 3} had come before line {number}"
    label = int(case.fields(number - 3)[2])
    return with_label(case, head, label, f" had not been delivered to {case.name} in line {number}")


def words_before_cutting(case):
    return list(words_of_violation(case) if case.fault else words_of_pass(case))


def words_of(case):
    """The lines between the last line of the check and the picture."""
    return [cut(it) for it in words_before_cutting(case)]
