"""Whether another order explains a violation, and how many of all reported labels one explains, as the model has it.

Behind a violation the program answers each line by the same words. What the lines report is still known: they are
accepted or rejected as if nothing was judged.
"""
from typing import NamedTuple, Optional

import model
from any_order import some_order
from assertions import require
from explanation_certificates import holds_as_list, require_certificate

# The kinds of which the question is asked: the violations of the others are final.
ASKED = ("register", "lwwset", "rga")
WORDS_OF_ALL = "one explains all labels: suspect a clock, a tie-break or a misreported delivery"
WORDS_OF_SOME = "one explains the labels up to here, but none explains those up to line {}"
WORDS_OF_NONE = "none explains the labels up to here, whatever the clocks are"
WORDS_OF_ONE_LIST = "as a list without clocks the labels up to here hold: check them as kind list"
WORDS_OF_NO_LIST = "as a list without clocks the labels up to here do not hold either"
KEYS = ("another_order", "explained_up_to", "unexplained_line", "one_list")
WORDS_OF_LATER = "none explains the labels up to here: a later line inserts an element they need"


class Opinion(NamedTuple):
    """Whether some order explains the labels up to the violation; the length of the longest prefix of all labels that
    one explains; and the line of the next label, or None."""

    explains: bool
    explained: int
    stop: Optional[int]


def reported_labels(text):
    """All labels that the text reports, and the number of the line of each."""
    replies = []
    monitor = model.run(text, replies, judge=lambda kind, labels: None)
    return monitor.labels, [at + 3 for at, it in enumerate(replies) if it.startswith("ok ")]


def is_explained(kind, labels):
    return some_order(kind, labels).order is not None


def opinion_on(case):
    """The opinion on a violation, or None where there is none or it is final."""
    kind = case.monitor.kind
    if not case.fault or kind not in ASKED:
        return None
    labels, lines = case.reported
    explained = next(it for it in range(len(labels), -1, -1) if is_explained(kind, labels[:it]))
    stop = lines[explained] if explained < len(labels) else None
    return Opinion(is_explained(kind, labels[:len(case.places)]), explained, stop)


def words_of_orders(case, opinion):
    if opinion.explains:
        return WORDS_OF_ALL if opinion.stop is None else WORDS_OF_SOME.format(opinion.stop)
    return WORDS_OF_NONE if opinion.explained < len(case.places) else WORDS_OF_LATER


def is_one_list(case):
    """Whether one order of the elements explains the labels up to the violation, or None where that is not asked."""
    is_asked = case.monitor.kind == "rga" and case.opinion and not case.opinion.explains
    return holds_as_list(case, model.run) if is_asked else None


def words_of_list(case):
    return WORDS_OF_ONE_LIST if case.one_list else WORDS_OF_NO_LIST


def require_opinion(case, told):
    """Does the object say what the model has, and nothing where the question is not asked?"""
    found = {it: told[it] for it in KEYS if it in told}
    wanted, opinion = {}, case.opinion
    if opinion:
        last = opinion.explained - 1 if opinion.explained else None
        wanted = {"another_order": opinion.explains, "explained_up_to": last, "unexplained_line": opinion.stop}
    if case.one_list is not None:
        wanted["one_list"] = case.one_list
    require(found == wanted, "whether another order explains it", found, wanted)
    require(("certificate" in told) == bool(opinion), "a certificate", told)
    if opinion:
        require_certificate(case, told["certificate"])


def require_order(case, parts):
    """Is this an RA-linearization of the longest prefix of the labels that some order explains?"""
    labels, lines = case.reported
    sequence = [(int(label), half) for label, half, _ in parts]
    explained = labels[:case.opinion.explained]
    require(model.linearizes(case.monitor.kind, explained, sequence), "no linearization", parts)
    require(all(int(line) == lines[int(label)] for label, _, line in parts), "lines", parts)
