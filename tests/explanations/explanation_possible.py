"""What the violating read of a register, an LWW set or an RGA can return so that some order explains it, as the model
has it. Where there are few answers each is tried; where there are many, conditions on the order decide."""
from itertools import combinations, permutations

from any_order import (
    Condition,
    Tree,
    conditions_of,
    order_of,
    shown_to,
    some_order,
    updates_of,
    visible_updates,
    wrong_query_of_rga,
)
from assertions import require
from explanation_elements import BEFORE, FAR, elements_words, first_difference
from specification import put_in

ASKED = ("register", "lwwset", "rga")
# The most elements of which all lists are tried, and the most questions that the program asks.
MOST_OF_SET, MOST_OF_LIST, MOST_ASKED = 6, 5, 16
# The most values that a page shows.
MOST_VALUES = 8


def is_asked(case):
    return bool(case.fault) and case.monitor.kind in ASKED and case.cause == "query"


def before(case):
    return case.monitor.labels[:-1]


def is_explained_with(case, answer):
    """Does some order explain the labels before, and the read if it returns this?"""
    read = case.violating
    query = read.operation.query._replace(given=(answer,))
    changed = read._replace(operation=read.operation._replace(query=query))
    return some_order(case.monitor.kind, [*before(case), changed]).order is not None


def is_possible(case, *more):
    """Does some order of the updates meet what the labels before require, and these conditions?"""
    labels = before(case)
    updates = tuple(it.number for it in updates_of(labels))
    return not order_of(updates, (*conditions_of(case.monitor.kind, labels), *more))[1]


# Registers.


def require_values(case, told):
    written = {it.operation.update.given[0] for it in updates_of(before(case))}
    wanted = {
        "values": sorted(it for it in written if is_explained_with(case, it)),
        "none": is_explained_with(case, "none"),
    }
    require(told == wanted, "the values that the read can return", told, wanted)


# LWW sets.


def updates_by_element(case):
    """The additions and the removals of each element among the visible updates."""
    found = {}
    for it in visible_updates(case.violating, before(case)):
        sort = 0 if it.operation.update.what is put_in else 1
        found.setdefault(it.operation.update.given[0], (set(), set()))[sort].add(it.number)
    return found


def can_be(case, right, others):
    return bool(right) and is_possible(case, Condition(frozenset(others), frozenset(right), "last", 0))


def sorts_of_elements(case):
    """Of each element whether some list of the read has it, and whether some has it not."""
    found = updates_by_element(case)
    if len(found) <= MOST_OF_SET:
        lists = [it for size in range(len(found) + 1) for it in combinations(sorted(found), size)]
        lists = [it for it in lists if is_explained_with(case, it)]
        return {it: (any(it in one for one in lists), any(it not in one for one in lists)) for it in found}
    return {it: (can_be(case, *found[it]), can_be(case, *found[it][::-1])) for it in found}


def require_elements(case, told):
    sorts = sorts_of_elements(case)
    always = sorted(it for it, (within, without) in sorts.items() if within and not without)
    either = sorted(it for it, (within, without) in sorts.items() if within and without)
    left = told["unasked"]
    require(set(told) == {"listed", "undecided", "unasked"} and left == sorted(set(left)), told)
    require(told["listed"] == [it for it in always if it not in left], "listed", told, always)
    require(told["undecided"] == [it for it in either if it not in left], "undecided", told, either)
    both = [it for it, (added, removed) in updates_by_element(case).items() if added and removed]
    require(set(left) <= set(both) and (not left or len(both) - len(left) >= MOST_ASKED), "unasked", told, both)


# RGA.


def reported_in(case):
    """The elements that the read returned and can return, each at its first place."""
    shown = shown_to(case.violating, before(case))
    return [it for it in dict.fromkeys(case.violating.operation.query.given[0]) if it in shown]


def pair_condition(tree, left, right):
    """What the left element's place before the right one requires: nothing, a condition, or `False`, what no order
    meets."""
    upper, lower = tree.fork(left, right)
    if lower is None:
        return False
    if upper is None:
        return None
    return Condition(frozenset([tree.inserting[lower]]), frozenset([tree.inserting[upper]]), "read", 0)


def keeps(case, elements):
    """Does some order have these elements one before the next?"""
    tree = Tree(before(case))
    found = [pair_condition(tree, *pair) for pair in zip(elements, elements[1:])]
    return all(it is not False for it in found) and is_possible(case, *(it for it in found if it))


def is_before(elements, left, right):
    return elements.index(left) < elements.index(right)


def possible_lists(case):
    """All lists that the read can return, or None where there are too many to try."""
    shown = sorted(shown_to(case.violating, before(case)))
    if len(shown) > MOST_OF_LIST:
        return None
    return [it for it in permutations(shown) if is_explained_with(case, it)]


def beginning_of(case, lists):
    """How many of the reported elements come in their order in some list that the read can return."""
    reported = reported_in(case)

    def is_kept(count):
        pairs = list(zip(reported[:count], reported[1:count]))
        if lists is None:
            return keeps(case, reported[:count])
        return any(all(is_before(it, *pair) for pair in pairs) for it in lists)

    return max(it for it in range(len(reported) + 1) if is_kept(it))


def can_turn(case, lists, left, right):
    """Has some list that the read can return these two the other way round?"""
    if lists is None:
        return keeps(case, [right, left])
    return any(is_before(it, right, left) for it in lists)


def require_list(case, told):
    lists = possible_lists(case)
    nearest, kept, turned = told["nearest"], told["kept"], told["undecided"]
    require(set(told) == {"nearest", "kept", "undecided"}, told)
    require(is_explained_with(case, tuple(nearest)), "no order explains the nearest list", told)
    require(kept == beginning_of(case, lists), "the reported elements that are kept", told)
    pairs = list(zip(reported_in(case)[:kept], reported_in(case)[1:kept]))
    require(all(is_before(nearest, *pair) for pair in pairs), "the order of the kept elements", told)
    wanted = [it for it, pair in enumerate(zip(nearest, nearest[1:])) if can_turn(case, lists, *pair)]
    require(set(turned) <= set(wanted) and turned == sorted(set(turned)), "undecided", told, wanted)
    require(len(nearest) - 1 > MOST_ASKED or turned == wanted, "undecided", told, wanted)


# All kinds.

JUDGES = {"register": require_values, "lwwset": require_elements, "rga": require_list}


def require_possible(case, told):
    """Does the object say what the read can return, and nothing where the question is not asked?"""
    case.possible = told.get("possible")
    has_answer = is_asked(case) and (
        case.monitor.kind != "rga" or wrong_query_of_rga(case.violating, case.monitor.labels, Tree(before(case))) != "open"
    )
    require((case.possible is not None) == has_answer, "what the read can return", told)
    if has_answer:
        JUDGES[case.monitor.kind](case, case.possible)


# The row of the page.


def words_of_values(case):
    it = case.possible
    values = (["none"] if it["none"] else []) + [str(one) for one in it["values"][:MOST_VALUES]]
    more = len(it["values"]) - MOST_VALUES
    values += [f"one of {more} more"] if more > 0 else []
    manner = "depending on" if len(values) > 1 else "whatever"
    return "possible", f"{' or '.join(values)}, {manner} the order of the writes"


def words_of_elements(case):
    it = case.possible
    sorts = {"listed": "in each order", "undecided": "in some orders", "unasked": "not tried"}
    words = [f"{elements_words(it[key])} {manner}" for key, manner in sorts.items() if it[key]]
    return "possible", "; ".join(words) or "no element, whatever the order of the updates"


def words_of_list(case):
    it = case.possible
    place = first_difference(case.violating.operation.query.given[0], it["nearest"])
    start = place - BEFORE if place >= FAR else 0
    elements = it["nearest"][start:]
    words = elements_words(elements, [at - start for at in it["undecided"]]) or "-"
    key = " (| either way round)" if "|" in words else ""
    return "possible", f"nearest list: {'.. ' if start else ''}{words}{key}"


WORDS = {"register": words_of_values, "lwwset": words_of_elements, "rga": words_of_list}


def row_of_possible(case):
    """The head and the words of the row, or None where there is none."""
    return WORDS[case.monitor.kind](case) if case.possible is not None else None
