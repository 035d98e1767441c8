"""A small correct list, which orders its elements without clocks, and lists with planted bugs."""
from typing import Any, Dict, List, Optional, Tuple

Id = Tuple[str, int]
Message = Dict[str, Any]
LEFT, RIGHT = 0, 1


class Node:
    """An element of a list, with the elements that were inserted on both sides of it."""

    def __init__(self, identifier: Optional[Id], element: Any, is_shown: bool = True) -> None:
        self.identifier, self.element, self.is_shown = identifier, element, is_shown
        self.children: Tuple[List["Node"], List["Node"]] = ([], [])


class Fugue:
    """A list by Fugue: a tree with left and right children, of which siblings stand in the order of their identifiers.

    An update returns the message that the other replicas receive.
    """

    def __init__(self, name: str) -> None:
        self.name, self.inserted = name, 0
        self.nodes: Dict[Optional[Id], Node] = {None: Node(None, None, False)}

    def insert(self, index: int, element: Any) -> Message:
        nodes = self.walk(self.nodes[None])
        behind = [place for place, it in enumerate(nodes) if it.is_shown]
        left = behind[index - 1] if index else next(place for place, it in enumerate(nodes) if it.identifier is None)
        is_free = not nodes[left].children[RIGHT]
        parent, side = (nodes[left], RIGHT) if is_free else (nodes[left + 1], LEFT)
        self.inserted += 1
        message = {
            "identifier": (self.name, self.inserted), "element": element, "parent": parent.identifier, "side": side,
        }
        self.apply(message)
        return message

    def delete(self, index: int) -> Message:
        shown = [it for it in self.walk(self.nodes[None]) if it.is_shown]
        message = {"removed": shown[index].identifier}
        self.apply(message)
        return message

    def receive(self, message: Message) -> None:
        self.apply(message)

    def apply(self, message: Message) -> None:
        if "removed" in message:
            self.nodes[message["removed"]].is_shown = False
        elif message["identifier"] not in self.nodes:
            node = Node(message["identifier"], message["element"])
            self.nodes[node.identifier] = node
            self.add_sibling(self.nodes[message["parent"]].children[message["side"]], node)

    def add_sibling(self, siblings: List[Node], node: Node) -> None:
        siblings.append(node)
        siblings.sort(key=lambda it: it.identifier or ("", 0))

    def walk(self, node: Node) -> List[Node]:
        """Returns the nodes below this one, and the node itself, in the order of the list."""
        left, right = ([below for it in side for below in self.walk(it)] for side in node.children)
        return [*left, node, *right]

    def read(self) -> List[Any]:
        return [it.element for it in self.walk(self.nodes[None]) if it.is_shown]


class SiblingsByArrival(Fugue):
    """Keeps siblings in the order in which they arrive."""

    def add_sibling(self, siblings: List[Node], node: Node) -> None:
        siblings.append(node)


class LosesADelivery(Fugue):
    """Does not apply each third message."""

    received = 0

    def receive(self, message: Message) -> None:
        self.received += 1
        if self.received % 3:
            super().receive(message)


class ShowsAgain(Fugue):
    """Shows a removed element again when another one is inserted beside it."""

    def apply(self, message: Message) -> None:
        super().apply(message)
        parent = self.nodes[message.get("parent")]
        parent.is_shown = parent.is_shown or parent.identifier is not None


class ReadsStale(Fugue):
    """Returns the list before the last delivery, in the first read after it."""

    stale: Optional[List[Any]] = None

    def receive(self, message: Message) -> None:
        self.stale = super().read()
        super().receive(message)

    def read(self) -> List[Any]:
        stale, self.stale = self.stale, None
        return super().read() if stale is None else stale


class SendsIndexes:
    """Sends the index of each update, which a receiver uses as it is, whatever it has inserted itself."""

    def __init__(self, name: str) -> None:
        self.elements: List[Any] = []

    def insert(self, index: int, element: Any) -> Message:
        self.elements.insert(index, element)
        return {"index": index, "element": element}

    def delete(self, index: int) -> Message:
        return {"index": index, "removed": self.elements.pop(index)}

    def receive(self, message: Message) -> None:
        if "element" in message:
            self.elements.insert(message["index"], message["element"])
        elif message["removed"] in self.elements:
            self.elements.remove(message["removed"])

    def read(self) -> List[Any]:
        return list(self.elements)


class SendsIndexesOfRemovals(SendsIndexes):
    """Removes what stands at the index that was sent."""

    def receive(self, message: Message) -> None:
        if "element" in message:
            self.elements.insert(message["index"], message["element"])
        else:
            del self.elements[message["index"] : message["index"] + 1]


def named_by_index(base: Any) -> Any:
    """Returns the class with the methods `insert_at` and `remove_at`, and without `insert` and `delete`."""
    class Named:
        def __init__(self, name: str) -> None:
            own = base(name)
            self.insert_at, self.remove_at, self.receive, self.read = own.insert, own.delete, own.receive, own.read

    return Named


BUGS: Dict[str, Any] = {
    "siblings stand in the order of arrival": SiblingsByArrival,
    "a delivery is reported and not applied": LosesADelivery,
    "an index is sent without transformation": SendsIndexes,
    "the index of a removal is sent too": SendsIndexesOfRemovals,
    "an element is back after its removal": ShowsAgain,
    "a read is stale": ReadsStale,
}
