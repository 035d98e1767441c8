"""The operations of a list that lie between what a replica showed before and after a change."""
from typing import Dict, Hashable, Iterable, List

from .errors import NotRepresentable
from .operations import Operation, insert, remove


def inserted(before: Iterable[Hashable], index: int, element: Hashable) -> Operation:
    """Creates a list's insertion of this element at an index of the list that the replica showed before it.

    It is `insert` with the elements on both sides of the index, which counts from 0. An insertion at the end has the
    length of the list as its index.

    Raises:
        IndexError: The list has no such index.
    """
    shown = [*before]
    if not 0 <= index <= len(shown):
        raise IndexError(f"the index {index} of an insertion into {len(shown)} elements: expected 0 to {len(shown)}")
    left = shown[index - 1] if index > 0 else None
    return insert(left, element, shown[index] if index < len(shown) else None)


def difference(before: Iterable[Hashable], after: Iterable[Hashable]) -> List[Operation]:
    """Creates the operations that lead from the list that a replica showed before a change to the one after it.

    They are a removal of each element that is gone, and then an insertion of each new one, as one update of
    `Recorder.update`. The elements of each list are distinct.

    Raises:
        NotRepresentable: An element stands twice in a list, or two elements changed their order.
    """
    old, new = _positions("before", before), _positions("after", after)
    kept = [it for it in new if it in old]
    for left, right in zip(kept, kept[1:]):
        if old[left] > old[right]:
            raise NotRepresentable(
                f"{left!r} and {right!r} changed their order: report a moved element as a removal, and as an insertion "
                "of a new element"
            )
    found = [remove(it) for it in old if it not in new]
    following = [*kept, None]
    passed = 0
    left = None
    for it in new:
        if it in old:
            passed += 1
        else:
            found.append(insert(left, it, following[passed]))
        left = it
    return found


def _positions(name: str, elements: Iterable[Hashable]) -> Dict[Hashable, int]:
    """Returns the elements in their order, each with its position. They have to be distinct."""
    found: Dict[Hashable, int] = {}
    for it in elements:
        if it in found:
            raise NotRepresentable(
                f"{it!r} stands twice in the list {name} the change: expected distinct elements, such as each "
                "character with a number of its own"
            )
        found[it] = len(found)
    return found
