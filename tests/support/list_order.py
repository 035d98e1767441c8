"""What all reports of a list together say of the order of its elements, for the model (model.py).

Each report says edges: an insertion that its element stands behind the left neighbour and before the right one, a read
that each of its elements stands before the next. One order explains all reports if and only if no edges make a cycle.
"""
from specification import are_all_shown, are_some_shown, insert_between


def insertions_of(labels):
    """What each insertion reports: its left neighbour, its element and its right neighbour."""
    updates = [it.operation.update for it in labels]
    return [it.given for it in updates if it and it.what is insert_between]


def elements_of(labels):
    """All elements that are ever inserted, by the labels that insert them."""
    return list(dict.fromkeys(element for _, element, _ in insertions_of(labels)))


def edges_of(labels):
    """The pairs of elements of which a report says that the first one stands before the second one."""
    edges = set()
    for left, element, right in insertions_of(labels):
        edges.update(pair for pair in ((left, element), (element, right)) if 0 not in pair)
    for query in (it.operation.query for it in labels):
        if query and query.what in (are_all_shown, are_some_shown):
            (elements,) = query.given
            edges.update(zip(elements, elements[1:]))
    return edges


def list_order_of(labels):
    """Takes away, again and again, the first element that no remaining one has an edge to. Returns the elements in this
    order, or None where none can be taken."""
    remaining, edges, order = elements_of(labels), edges_of(labels), []
    while remaining:
        first = next((late for late in remaining if not any((it, late) in edges for it in remaining)), None)
        if first is None:
            return None
        remaining.remove(first)
        order.append(first)
    return tuple(order)
