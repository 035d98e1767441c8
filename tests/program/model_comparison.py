"""Holds the built program against the model (tests/support/model.py), and tells a difference for a person to look
at."""
import model

# So many differences are told, and so often a text is run to leave lines out.
MOST_TOLD, MOST_TRIED = 5, 400
# Of a line so much is shown, in characters.
SHOWN = 300
CHECK, REPORT = ["check"], ["check", "--report"]


def difference(program, text, ways=(CHECK, REPORT)):
    """Where program and model differ, as the words and the two runs, or None."""
    plain, reported = model.checks(text)
    for words in ways:
        ran, wanted = program(words, text), reported if words == REPORT else plain
        if ran != wanted:
            return words, ran, wanted
    return None


def shrunk(program, text):
    """The text without commands that the difference does not need."""
    lines = text.splitlines(keepends=True)
    at, tried = len(lines) - 1, 0
    while at >= 2 and tried < MOST_TRIED:
        fewer = lines[:at] + lines[at + 1 :]
        if difference(program, b"".join(fewer)):
            lines = fewer
        at, tried = at - 1, tried + 1
    return b"".join(lines)


def first_differing(ran, wanted):
    """The first lines that differ, or what was said and the status."""
    written = [it[0].decode("latin-1").splitlines(keepends=True) for it in (ran, wanted)]
    longest = max(map(len, written))
    for number, (one, other) in enumerate(zip(*(it + ["nothing"] * (longest - len(it)) for it in written)), 1):
        if one != other:
            return f"line {number} is {one[:SHOWN]!r}, expected {other[:SHOWN]!r}"
    expected = f"expected {wanted[1]!r} with status {wanted[2]}"
    return f"standard error is {ran[1][:SHOWN]!r} with status {ran[2]}, {expected}"


def told(program, text):
    """The difference, and the lines of a text that shows it."""
    text = shrunk(program, text)
    words, ran, wanted = difference(program, text)
    lines = text.decode("latin-1").splitlines(keepends=True)
    shown = "".join(f"\n    {it[:SHOWN]!r}" for it in lines)
    return f"{' '.join(words)}: {first_differing(ran, wanted)}{shown}"


def compare(program, name, texts, ways=(CHECK, REPORT)):
    """Compares all texts, which come with what to call each, and closes with how many passed. Gives the exit status."""
    passed = failed = 0
    for called, text in texts:
        if difference(program, text, ways) is None:
            passed += 1
            continue
        failed += 1
        print(f"{called}, {told(program, text)}" if failed <= MOST_TOLD else called, flush=True)
    print(f"{name}: {passed} passed, {failed} failed")
    return 0 if passed and not failed else 1
