// A small correct replica of each kind. An update returns the message that the other replicas receive.

/** A counter: a number with increments and decrements. */
export class Counter {
  number = 0;

  increment() {
    return this.step(1);
  }

  decrement() {
    return this.step(-1);
  }

  step(by) {
    this.number += by;
    return { by };
  }

  receive({ by }) {
    this.number += by;
  }

  read() {
    return this.number;
  }
}

/** The common part of the kinds with clocks. */
class Clocked {
  clock = 0;

  constructor(name) {
    this.name = name;
  }

  tick() {
    this.clock += 1;
    return [this.clock, this.name];
  }

  raiseClock([clock]) {
    this.clock = Math.max(this.clock, clock);
  }

  isLater([clock, name], [thanClock, thanName]) {
    return clock > thanClock || (clock === thanClock && name > thanName);
  }
}

/** A register: the write with the later stamp wins. */
export class Register extends Clocked {
  value = null;
  stamp = [0, ""];

  write(value) {
    const message = { value, stamp: this.tick() };
    this.apply(message);
    return message;
  }

  receive(message) {
    this.raiseClock(message.stamp);
    this.apply(message);
  }

  apply({ value, stamp }) {
    if (this.isLater(stamp, this.stamp)) Object.assign(this, { value, stamp });
  }

  read() {
    return this.value;
  }
}

/** An LWW set: for each element the update with the later stamp wins. */
export class LwwSet extends Clocked {
  last = new Map();

  add(element) {
    return this.change(element, true);
  }

  remove(element) {
    return this.change(element, false);
  }

  change(element, isIn) {
    const message = { element, isIn, stamp: this.tick() };
    this.apply(message);
    return message;
  }

  receive(message) {
    this.raiseClock(message.stamp);
    this.apply(message);
  }

  apply(message) {
    const last = this.last.get(message.element);
    if (last === undefined || this.isLater(message.stamp, last.stamp)) this.last.set(message.element, message);
  }

  read() {
    return [...this.last.values()].filter((it) => it.isIn).map((it) => it.element);
  }
}

/** An OR-Set: a removal removes the additions that its replica has observed. */
export class OrSet {
  added = 0;
  pairs = [];

  constructor(name) {
    this.name = name;
  }

  add(element) {
    this.added += 1;
    const message = { element, identifier: `${this.name} ${this.added}` };
    this.apply(message);
    return message;
  }

  remove(element) {
    const identifiers = this.pairs.filter((it) => it.element === element).map((it) => it.identifier);
    const message = { element, identifiers };
    this.apply(message);
    return message;
  }

  receive(message) {
    this.apply(message);
  }

  apply(message) {
    if (message.identifiers === undefined) this.pairs.push(message);
    else this.pairs = this.pairs.filter((it) => !message.identifiers.includes(it.identifier));
  }

  read() {
    return this.pairs.map((it) => it.element);
  }
}

/** A list: of two elements behind the same anchor, the one with the later stamp comes first. */
export class Rga extends Clocked {
  nodes = new Map([[null, { element: null, isShown: false, children: [] }]]);

  insertAfter(anchor, element) {
    const message = { anchor, element, stamp: this.tick() };
    this.insert(message);
    return message;
  }

  remove(element) {
    const message = { removed: element };
    this.hide(message);
    return message;
  }

  receive(message) {
    if (message.removed !== undefined) return this.hide(message);
    this.raiseClock(message.stamp);
    return this.insert(message);
  }

  insert({ anchor, element, stamp }) {
    const { children } = this.nodes.get(anchor);
    const node = { element, stamp, isShown: true, children: [] };
    const place = children.findIndex((it) => !this.isLater(it.stamp, stamp));
    children.splice(place < 0 ? children.length : place, 0, node);
    this.nodes.set(element, node);
  }

  hide({ removed }) {
    this.nodes.get(removed).isShown = false;
  }

  read() {
    const shown = (node) => [...(node.isShown ? [node.element] : []), ...node.children.flatMap(shown)];
    return shown(this.nodes.get(null));
  }
}

/** Returns a subclass whose replicas fork: each fork is a copy under a new name. */
export function forking(Base) {
  return class Forking extends Base {
    async fork(name) {
      return Object.assign(new Forking(name), structuredClone({ ...this }), { name });
    }
  };
}

export const CORRECT = { counter: Counter, register: Register, lwwset: LwwSet, orset: OrSet, rga: Rga };
