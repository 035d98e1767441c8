"""What a read of any type and of a multi-value register is compared with, as the model (tests/support/model.py) has it."""

# The most values that have a line each: of those left out, and of those that the read must not return.
MOST_VALUES = 3
REASONS = {"any": "another read that sees the same updates returned another value."}
EXPECTED = {
    "any": "the value of the earlier read that sees the same updates",
    "mvregister": "the values of the writes that it sees and that no other one of these saw",
}


def rows_of_read(case):
    """The rows below the expected result: a head, the words before a label, and perhaps the label and words behind it."""
    return rows_of_any(case) if case.monitor.kind == "any" else rows_of_mvregister(case)


def updates_seen(case, label):
    return {it for it in label.sees if case.monitor.labels[it].operation.update}


def rows_of_any(case):
    seen = updates_seen(case, case.violating)
    for label in case.monitor.labels[:-1]:
        if not label.operation.update and updates_seen(case, label) == seen:
            yield "differs", "", label.number, " sees the same updates"
            return


def rows_of_mvregister(case):
    labels, listed = case.monitor.labels, case.fields(case.place)[2]
    values = [] if listed == "-" else [int(it) for it in listed.split(",")]
    seen = updates_seen(case, case.violating)
    siblings = [it for it in sorted(seen) if not any(it in labels[other].sees for other in seen)]
    left_out = [it for it in siblings if written(case, it) not in values]
    for label in left_out[:MOST_VALUES]:
        yield "left out", "", label, ""
    wrong = [it for it in values if it not in {written(case, label) for label in siblings}]
    for value in wrong[:MOST_VALUES]:
        writes = [it.number for it in labels if it.operation.update and written(case, it.number) == value]
        if not writes:
            yield "shows", f"{value}, which nobody wrote"
            continue
        how = "a write that it sees replaced" if writes[-1] in seen else "was not delivered"
        yield "shows", f"{value}, written by ", writes[-1], f", which {how}"


def written(case, label):
    """The value that the write with this label wrote."""
    return int(case.fields(case.places[label])[2])
