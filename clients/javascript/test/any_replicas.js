// Small correct replicas of the kinds `any` and `mvregister`, and replicas with planted bugs.

const KEYS = 3;

/**
 * A map from keys to values. Of two updates of one key, the one with the later clock wins. The number of an update says
 * what it does: its key, its value, and whether it removes the key.
 */
export class Document {
  clock = 0;
  entries = new Map();

  constructor(name) {
    this.name = name;
  }

  update(number) {
    this.clock += 1;
    const message = { key: number % KEYS, value: number, isGone: number % 4 === 0, clock: this.clock, by: this.name };
    this.apply(message);
    return message;
  }

  receive(message) {
    this.clock = Math.max(this.clock, message.clock);
    this.apply(message);
  }

  apply(message) {
    const last = this.entries.get(message.key);
    if (last === undefined || this.isLater(message, last)) this.entries.set(message.key, message);
  }

  isLater(message, last) {
    return message.clock > last.clock || (message.clock === last.clock && message.by > last.by);
  }

  read() {
    const shown = [...this.entries.values()].filter((it) => !it.isGone);
    return Object.fromEntries(shown.map(({ key, value, by }) => [key, [value, { by }]]));
  }
}

/** A map whose whole state is merged. */
export class MergedDocument extends Document {
  receive = null;

  state() {
    return [...this.entries.values()];
  }

  merge(state) {
    for (const message of state) super.receive(message);
  }
}

/** Lets the update win that arrives later. */
export class AppliesByArrival extends Document {
  isLater() {
    return true;
  }
}

/** Ignores what arrives directly after an update of its own. */
class IgnoresWhenBusy extends Document {
  isBusy = false;

  update(number) {
    this.isBusy = true;
    return super.update(number);
  }

  receive(message) {
    if (!this.isBusy) super.receive(message);
    this.isBusy = false;
  }
}

/** Returns what it returned before, unless it made an update since then. */
export class ReadsFromACache extends Document {
  cached = null;

  update(number) {
    this.cached = null;
    return super.update(number);
  }

  read() {
    this.cached ??= super.read();
    return this.cached;
  }
}

/** A register that keeps concurrent writes: a write replaces those that its replica had. */
export class Siblings {
  writes = 0;
  values = new Map();

  constructor(name) {
    this.name = name;
  }

  write(value) {
    this.writes += 1;
    const message = { value, by: this.name, dot: `${this.name}${this.writes}`, replaced: [...this.values.keys()] };
    this.receive(message);
    return message;
  }

  receive({ value, dot, replaced }) {
    for (const it of replaced) this.values.delete(it);
    this.values.set(dot, value);
  }

  read() {
    return [...this.values.values()];
  }
}

/** Keeps the last value that a received write replaced. */
class KeepsReplaced extends Siblings {
  receive({ replaced, by, ...message }) {
    super.receive({ ...message, replaced: by === this.name ? replaced : replaced.slice(0, -1) });
  }
}

/** Keeps the received value alone. */
export class DropsConcurrent extends Siblings {
  receive(message) {
    this.values = new Map();
    super.receive(message);
  }
}

/** A register that keeps concurrent writes, whose state is merged: the values, and the writes that it has seen. */
export class MergedSiblings {
  values = [];
  seen = {};

  constructor(name) {
    this.name = name;
  }

  write(value) {
    this.seen[this.name] = (this.seen[this.name] ?? 0) + 1;
    this.values = [{ by: this.name, number: this.seen[this.name], value }];
  }

  state() {
    return { values: this.values, seen: { ...this.seen } };
  }

  merge({ values, seen }) {
    const isKnown = (known, { by, number }) => number <= (known[by] ?? 0);
    const isIn = (list, { by, number }) => list.some((it) => it.by === by && it.number === number);
    const mine = this.values.filter((it) => isIn(values, it) || !isKnown(seen, it));
    this.values = this.chosen([...mine, ...values.filter((it) => !isKnown(this.seen, it))]);
    for (const [name, count] of Object.entries(seen)) this.seen[name] = Math.max(this.seen[name] ?? 0, count);
  }

  chosen(values) {
    return values;
  }

  read() {
    return this.values.map((it) => it.value);
  }
}

/** Keeps the greatest value alone when states are merged. */
class MergesTheGreatest extends MergedSiblings {
  chosen(values) {
    return [...values].sort((one, other) => other.value - one.value).slice(0, 1);
  }
}

export const DOCUMENT_BUGS = {
  "updates are applied in the order of arrival": AppliesByArrival,
  "a delivery is ignored when the replica is busy": IgnoresWhenBusy,
  "a read is cached": ReadsFromACache,
};
export const SIBLING_BUGS = {
  "a replaced value is kept": KeepsReplaced,
  "a concurrent value is dropped": DropsConcurrent,
  "a merge takes the greatest value": MergesTheGreatest,
};
