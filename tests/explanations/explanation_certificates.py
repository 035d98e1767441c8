"""Why no order explains a violation, as the program says it: claims, each with the label whose line shows it.

There may be several certificates, so that the program's own is judged: each claim holds by the definitions, and either
one of them alone excludes every order, or the labels that have to come before others are stuck: all of the others have
claims themselves. Of an RGA they are a cycle.
"""
from any_order import queries_of, shown_to, updates_of
from any_order_evidence import Fault, Held, held_by, is_a_fault, right_and_wrong
from assertions import require

KEYS = ["because", "before", "after", "elements", "label", "line"]
LINKS = ("sees", "needs", "reads")
# The most claims that have a line each.
MOST_CLAIMS = 8


# What holds.


def newest_right_and_wrong(query, labels, element):
    """Of each replica the newest visible update that matters: those of them after which the query returns what it did,
    and the others. An older one of the same replica cannot be the last one."""
    right, wrong = right_and_wrong(query, labels, element)
    newest = {labels[it].replica: it for it in sorted(right | wrong)}.values()
    return {it for it in newest if it in right}, {it for it in newest if it in wrong}


def is_link(kind, labels, claim):
    """Does the label show that the other one comes before one of these?"""
    before, late, number = claim["before"], set(claim["after"]), claim["label"]
    if claim["because"] == "sees":
        return late == {number} and held_by(kind, labels, Held(before, "sees", number)) == late
    if claim["because"] == "needs" and before == number:
        # An insertion behind its own element stands before itself.
        anchor, element = labels[number].operation.update.given
        return late == {number} and claim["elements"] == [anchor] and anchor == element
    if claim["because"] == "needs":
        is_so = held_by(kind, labels, Held(before, "needs", number)) == late == {number}
        return is_so and claim["elements"] == [labels[before].operation.update.given[1]]
    query = next(it for it in queries_of(labels) if it.number == number)
    if kind == "rga":
        return held_by(kind, labels, Held(before, "read", number, tuple(claim["elements"]))) == late
    right, wrong = newest_right_and_wrong(query, labels, *claim["elements"] or [None])
    return before in wrong and late == right


def is_fault(kind, labels, claim):
    """Can no order make the label right, by the claim?"""
    number, before, elements = claim["label"], claim["before"], claim["elements"]
    if claim["because"] in ("listed", "unlisted"):
        query = next(it for it in queries_of(labels) if it.number == number)
        (shown,) = query.operation.query.given
        if claim["because"] == "listed":
            return elements[0] not in shown_to(query, labels) or shown.count(elements[0]) > 1
        return elements[0] in shown_to(query, labels) - set(shown) and inserts(labels, before, elements[0])
    if claim["because"] == "unseen":
        query = next(it for it in queries_of(labels) if it.number == number)
        right, wrong = newest_right_and_wrong(query, labels, *elements or [None])
        return not right and (bool(wrong) or is_a_fault(kind, labels, Fault(number, "unseen", *elements or [None])))
    reasons = {"repeats": "repeated", "root": "repeated", "absent": "absent", "open": "open", "below": "below"}
    about = tuple(elements[::-1]) if claim["because"] == "below" else before
    return is_a_fault(kind, labels, Fault(number, reasons[claim["because"]], about))


def inserts(labels, number, element):
    return any(it.number == number and it.operation.update.given[1:] == (element,) for it in updates_of(labels))


def require_certificate(case, claims):
    """Do the claims show that no order explains the labels? There are none if one does."""
    labels, kind = case.reported[0][:len(case.places)], case.monitor.kind
    require(bool(claims) != case.opinion.explains, "a certificate", claims)
    for claim in claims:
        require([*claim] == KEYS and claim["line"] == case.line_of(claim["label"]), "a claim", claim)
        holds = is_link if claim["because"] in LINKS else is_fault
        require(holds(kind, labels, claim), "a claim that does not hold", claim)
    links = [it for it in claims if it["because"] in LINKS]
    require(len(links) in (0, len(claims)) and (links or len(claims) < 2), "claims of two sorts", claims)
    befores = [it["before"] for it in links]
    require(len(set(befores)) == len(befores), "a label that is held twice", claims)
    if kind == "rga":
        wanted = [[it] for it in befores[1:] + befores[:1]]
        require([it["after"] for it in links] == wanted, "no cycle", claims)
    require(all(set(it["after"]) <= set(befores) for it in links), "a label that is free", claims)
    case.claims = claims


# One list.


def holds_as_list(case, run):
    """Do the lines up to the violation hold as those of a list whose insertions name no neighbours?"""
    form = case.head[0].split(" ")[1]
    lines = [f"RAH {form} list", case.head[1]]
    for at, line in enumerate(case.lines[2:case.place + 3]):
        if case.is_accepted(at):
            lines.append(line_of_list(line))
    return run("".join(f"{it}\n" for it in lines).encode(), []).fault is None


def line_of_list(line):
    words = line.split(" ")
    if words[1] == "after":
        return f"{words[0]} insert 0 {words[3]} 0"
    return " ".join(it for it in words if not it.startswith("@"))


# Words.


def rows_of_claims(case):
    for number, claim in enumerate(case.claims[:MOST_CLAIMS]):
        yield "and" if number else "because", f"line {claim['line']}{sentence(case, claim)}"
    others = len(case.claims) - MOST_CLAIMS
    if others > 0:
        yield "and", f"{others} more claim{'s' if others > 1 else ''}; --json has all of them"


def sentence(case, claim):
    before = "" if claim["before"] is None else f"line {case.line_of(claim['before'])}"
    element, answer = (claim["elements"] or [0])[0], answer_of(case.fields(claim["line"] - 3), claim)
    return {
        "sees": f" sees {before}{order_of(case, claim)}",
        "needs": f" needs element {element}, which {before} inserts{order_of(case, claim)}",
        "reads": f"{answer}{order_of(case, claim)}",
        "repeats": f" inserts element {element}, as {before} does",
        "root": " inserts 0, which is the start of the list",
        "absent": f" needs element {element}, which no line up to here inserts" if element
        else " removes 0, which is the start of the list",
        "open": f" sees {before}, which needs element {element}, but sees no insertion of {element}",
        "listed": f" lists {element}, but sees it removed, sees no insertion of it, or repeats it",
        "unlisted": f" does not list {element}, but sees {before} insert it and no removal of it",
        "below": f"{answer}, its anchor or an anchor further up",
        "unseen": f"{answer}, but no update that could be the last it sees gives that",
    }[claim["because"]]


def answer_of(words, claim):
    """What a read answers: two elements of a list, one of a set, or the value of a register."""
    if words[1] != "read":
        return ""
    if len(claim["elements"]) == 2:
        return " lists {} before {}".format(*claim["elements"])
    if claim["elements"]:
        (element,) = claim["elements"]
        return f" lists {element}" if str(element) in words[2].split(",") else f" does not list {element}"
    return f" reads {words[2]}"


def order_of(case, claim):
    if claim["before"] is None:
        return ""
    later = [f"line {case.line_of(it)}" for it in claim["after"]]
    named = " or ".join(later) if len(later) < 3 else f"{later[0]} or one of {len(later) - 1} more"
    return f", so line {case.line_of(claim['before'])} is ordered before {named}"
