"""Histories of an RGA whose updates wait at a replica, and the same updates where none waits.

Replica a puts elements in, and replica b makes updates that need them: before they reach it, so that its updates wait,
or after they did. At the end b reads, where a line can hold what it shows.
"""
import itertools

# What b does: one element behind each of a's; elements behind one of a's, each behind the one before; all of them
# behind that one; or it removes each of a's.
FORMS = ("each", "chain", "comb", "removals")
TIMES = ("waiting", "had")
# A line has no more bytes.
LONGEST_LINE = 1_048_576


def shapes():
    """The names of these shapes."""
    return [f"rga-{form}-{time}" for form, time in itertools.product(FORMS, TIMES)]


def is_shape(name):
    return name in shapes()


def history(name, commands):
    """The lines of the commands, so many of them."""
    _, form, time = name.split("-")
    parts = {"each": each, "chain": chain, "comb": comb, "removals": removals}[form]
    made, changes, brought, shown = parts(commands - 1)
    read = f"b read {','.join(map(str, shown))}\n"
    if len(read) > LONGEST_LINE:
        made, changes, brought, _ = parts(commands)
        read = ""
    deliveries = [f"b got {label}\n" for label in range(brought)]
    return [*made, *(changes + deliveries if time == "waiting" else deliveries + changes), read][:commands]


def typed(count):
    """Replica a puts in elements from 1 on, each behind the one before."""
    return [f"a after {element - 1} {element} @{element}\n" for element in range(1, count + 1)]


def each(commands):
    brought = commands // 3
    # What is left over of the commands are elements that b never gets.
    made = commands - 2 * brought
    changes = [f"b after {it} {made + it} @{made + it}\n" for it in range(1, brought + 1)]
    shown = [element for it in range(1, brought + 1) for element in (it, made + it)]
    return typed(made), changes, brought, shown


def chain(commands):
    elements = range(2, commands)
    return typed(1), [f"b after {it - 1} {it} @{it}\n" for it in elements], 1, [1, *elements]


def comb(commands):
    elements = range(2, commands)
    return typed(1), [f"b after 1 {it} @{it}\n" for it in elements], 1, [1, *reversed(elements)]


def removals(commands):
    brought = (commands - 1) // 3
    made = commands - 1 - 2 * brought
    # A removal stands behind what it removes, since b has put in an element of a greater stamp before.
    first = f"b after 0 {made + 1} @{made + 1}\n"
    return typed(made), [first, *(f"b remove {it}\n" for it in range(1, brought + 1))], brought, [made + 1]
