"""The identifiers of an OR-Set's elements at each replica, as they follow from the reports."""
from typing import Any, Dict, List, Set, Tuple


# The effect of an update: its element, its identifiers, and whether they are added or removed. A plain tuple, since
# there are many of them, and the garbage collector does not track plain tuples of numbers.
Effect = Tuple[object, Tuple[int, ...], bool]


class ObservedIdentifiers:
    """The identifiers that each replica has observed, for types that do not expose what a removal removes."""

    def __init__(self, replicas: int) -> None:
        self._elements: List[Dict[object, Set[int]]] = [{} for _ in range(replicas)]
        self._effects: Dict[int, Effect] = {}

    def join(self, source: int) -> None:
        """Adds a replica with a copy of the identifiers of the source."""
        self._elements.append({element: set(observed) for element, observed in self._elements[source].items()})

    def identifiers_of(self, replica: int, element: object) -> Tuple[int, ...]:
        """Returns the identifiers of this element at this replica."""
        observed = self._elements[replica].get(element, ())
        return tuple(sorted(observed) if len(observed) > 1 else observed)

    def elements_of(self, replica: int) -> List[Any]:
        """Returns the elements that have an identifier at this replica."""
        return [element for element, observed in self._elements[replica].items() if observed]

    def issue(self, replica: int, label: int, effect: Effect) -> None:
        """Records the effect of the update with this label, and applies it at the replica that issued it."""
        self._effects[label] = effect
        self.deliver(replica, label)

    def deliver(self, replica: int, label: int) -> None:
        """Applies the update with this label at this replica."""
        element, identifiers, is_addition = self._effects[label]
        elements = self._elements[replica]
        observed = elements.get(element)
        if observed is None:
            observed = elements[element] = set()
        if is_addition:
            observed.update(identifiers)
        else:
            observed.difference_update(identifiers)
