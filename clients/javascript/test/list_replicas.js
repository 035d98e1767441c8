// A small correct list, which orders its elements without clocks, and lists with planted bugs.

const LEFT = 0;
const RIGHT = 1;
const ROOT = "";

/**
 * A list by Fugue: a tree with left and right children, of which siblings stand in the order of their identifiers. An
 * update returns the message that the other replicas receive.
 */
export class Fugue {
  inserted = 0;
  nodes = new Map([[ROOT, { identifier: ROOT, isShown: false, children: [[], []] }]]);

  constructor(name) {
    this.name = name;
  }

  insert(index, element) {
    const nodes = this.walk(this.nodes.get(ROOT));
    const shown = nodes.filter((it) => it.isShown);
    const left = index === 0 ? this.nodes.get(ROOT) : shown[index - 1];
    const isFree = left.children[RIGHT].length === 0;
    const parent = isFree ? left : nodes[nodes.indexOf(left) + 1];
    this.inserted += 1;
    const identifier = `${this.name}${String(this.inserted).padStart(6, "0")}`;
    const message = { identifier, element, parent: parent.identifier, side: isFree ? RIGHT : LEFT };
    this.apply(message);
    return message;
  }

  delete(index) {
    const shown = this.walk(this.nodes.get(ROOT)).filter((it) => it.isShown);
    const message = { removed: shown[index].identifier };
    this.apply(message);
    return message;
  }

  receive(message) {
    this.apply(message);
  }

  apply({ removed, identifier, element, parent, side }) {
    if (removed !== undefined) {
      this.nodes.get(removed).isShown = false;
    } else if (!this.nodes.has(identifier)) {
      const node = { identifier, element, isShown: true, children: [[], []] };
      this.nodes.set(identifier, node);
      this.addSibling(this.nodes.get(parent).children[side], node);
    }
  }

  addSibling(siblings, node) {
    siblings.push(node);
    siblings.sort((one, other) => (one.identifier < other.identifier ? -1 : 1));
  }

  /** Returns the nodes below this one, and the node itself, in the order of the list. */
  walk(node) {
    const [left, right] = node.children.map((side) => side.flatMap((it) => this.walk(it)));
    return [...left, node, ...right];
  }

  read() {
    return this.walk(this.nodes.get(ROOT)).filter((it) => it.isShown).map((it) => it.element);
  }
}

/** Keeps siblings in the order in which they arrive. */
export class SiblingsByArrival extends Fugue {
  addSibling(siblings, node) {
    siblings.push(node);
  }
}

/** Does not apply each third message. */
export class LosesADelivery extends Fugue {
  received = 0;

  receive(message) {
    this.received += 1;
    if (this.received % 3 > 0) super.receive(message);
  }
}

/** Shows a removed element again when another one is inserted beside it. */
class ShowsAgain extends Fugue {
  apply(message) {
    super.apply(message);
    if (message.parent) this.nodes.get(message.parent).isShown = true;
  }
}

/** Returns the list before the last delivery, in the first read after it. */
class ReadsStale extends Fugue {
  stale = null;

  receive(message) {
    this.stale = super.read();
    super.receive(message);
  }

  read() {
    const { stale } = this;
    this.stale = null;
    return stale ?? super.read();
  }
}

/** Sends the index of each update, which a receiver uses as it is, whatever it has inserted itself. */
class SendsIndexes {
  elements = [];

  insert(index, element) {
    this.elements.splice(index, 0, element);
    return { index, element };
  }

  delete(index) {
    const [removed] = this.elements.splice(index, 1);
    return { index, removed };
  }

  receive({ index, element, removed }) {
    if (removed === undefined) this.elements.splice(index, 0, element);
    else this.elements = this.elements.filter((it) => it !== removed);
  }

  read() {
    return [...this.elements];
  }
}

/** Removes what stands at the index that was sent. */
class SendsIndexesOfRemovals extends SendsIndexes {
  receive(message) {
    if (message.removed === undefined) super.receive(message);
    else this.elements.splice(message.index, 1);
  }
}

/** Returns the class with the methods `insertAt` and `removeAt`, and without `insert` and `delete`. */
export const namedByIndex = (Base) =>
  class Named {
    constructor(name) {
      const own = new Base(name);
      this.insertAt = (index, element) => own.insert(index, element);
      this.removeAt = (index) => own.delete(index);
      this.receive = (message) => own.receive(message);
      this.read = () => own.read();
    }
  };

export const BUGS = {
  "siblings stand in the order of arrival": SiblingsByArrival,
  "a delivery is reported and not applied": LosesADelivery,
  "an index is sent without transformation": SendsIndexes,
  "the index of a removal is sent too": SendsIndexesOfRemovals,
  "an element is back after its removal": ShowsAgain,
  "a read is stale": ReadsStale,
};
