"""The elements of a list, as a page shows them, and where two lists differ."""

# The most elements that are shown. From this number of equal elements on, a list is shown from this number before the
# difference.
MOST_ELEMENTS, FAR, BEFORE = 8, 8, 3


def elements_words(elements, marks=()):
    """The first elements, and the number of the others. A bar is behind an element whose index is marked."""
    parts = "".join(f"{it}{'|' if at in marks else ','}" for at, it in enumerate(elements[:MOST_ELEMENTS]))
    others = len(elements) - MOST_ELEMENTS
    return parts[:-1] + (f" and {others} more" if others > 0 else "")


def first_difference(one, other):
    """The first index at which the lists differ, or the length of the shorter one if the other one extends it."""
    shorter = min(len(one), len(other))
    return next((at for at in range(shorter) if one[at] != other[at]), shorter)
