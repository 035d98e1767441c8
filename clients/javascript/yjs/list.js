// The lists of Yjs, which are reported as the kind `list`: how a transaction changes one, and what it shows.
import { NotRepresentable } from "../src/errors.js";
import { insert, remove } from "../src/operations.js";
import { unitsOf } from "./items.js";
import { elementsOf, shortly, shownName, valuesOf } from "./shown.js";

// The largest number of elements of a read: a line of the text format has at most 1,048,576 bytes.
const MOST_READ = 100_000;

/** The elements of all lists, by their identities. */
export class Elements {
  #clients = new Map();

  get(client, clock) {
    return this.#clients.get(client)?.get(clock);
  }

  /** Adds an element. Returns undefined if it exists. */
  add({ client, clock, value }, name) {
    if (!this.#clients.has(client)) this.#clients.set(client, new Map());
    const clocks = this.#clients.get(client);
    if (clocks.has(clock)) return undefined;
    const element = { client, clock, value, name, removals: [] };
    clocks.set(clock, element);
    return element;
  }
}

/** A `Y.Array` or a `Y.Text`. */
export class ListView {
  #name;
  #replicas;
  #elements;
  // The last read of each replica: its values and its elements.
  #earlier = [];

  /** `name` is its kind of shared type, and `elements` the known elements of all lists. */
  constructor({ name, replicas, elements }) {
    this.#name = name;
    this.#replicas = replicas;
    this.#elements = elements;
  }

  /** Returns the operations of a change, and the elements that it removed. */
  changeOf(replica, type, changes) {
    const removed = changes.removed.flatMap(({ client, clock }) => this.#elements.get(client, clock) ?? []);
    const insertions = this.#insertions(replica, unitsOf(type), changes.inserted[0]);
    return { removed, operations: [...removed.map((it) => remove(it.name)), ...insertions] };
  }

  /** Returns the elements that this replica shows, or that its user sees, or undefined if there are too many. */
  valueOf(replica, type, shown) {
    const units = type === undefined ? [] : unitsOf(type);
    if (units.length > MOST_READ) return undefined;
    const values = shown ?? (type === undefined ? [] : valuesOf(type, this.#name, units));
    const nameOf = (unit) => shownName(this.#elementOf(replica, unit), unit.value);
    const elements = elementsOf(values, units, this.#name, nameOf, this.#earlier[replica]);
    this.#earlier[replica] = { values, elements };
    return elements;
  }

  #elementOf(replica, { client, clock, value }) {
    const element = this.#elements.get(client, clock);
    if (element !== undefined) return element;
    const { name } = this.#replicas[replica];
    throw new NotRepresentable(
      `${name} shows ${shortly(value)}, the item ${client}:${clock}, which no watched document inserted: watch every ` +
        "document, from before its first change on",
    );
  }

  /** Returns the insertions of the new units, from the first inserted item on, each between its two neighbours. */
  #insertions(replica, units, first) {
    if (first === undefined) return [];
    const isNew = ({ client, clock }) => client === first.client && clock >= first.clock;
    const rights = [];
    units.reduceRight((right, unit, at) => {
      rights[at] = right;
      return isNew(unit) ? right : unit;
    }, undefined);
    const { name } = this.#replicas[replica];
    return units.flatMap((unit, at) => {
      if (!isNew(unit)) return [];
      const element = this.#elements.add(unit, `${shortly(unit.value)} ${this.#replicas[replica].ownerOf(unit)}`);
      const nameOf = (it) => (it === undefined ? null : this.#elementOf(replica, it).name);
      if (element === undefined) throw new NotRepresentable(`${name} inserted ${unit.client}:${unit.clock} twice`);
      return [insert(nameOf(units[at - 1]), element.name, nameOf(rights[at]))];
    });
  }
}
