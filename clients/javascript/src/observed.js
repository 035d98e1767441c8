/** The identifiers that each replica has observed, for types that do not expose what a removal removes. */
export class ObservedIdentifiers {
  #elements;
  #effects = new Map();

  constructor(replicas, makeMap) {
    this.#elements = Array.from({ length: replicas }, makeMap);
  }

  /** Adds a replica with a copy of the identifiers of the source. */
  join(source) {
    this.#elements.push(this.#elements[source].copy((observed) => new Set(observed)));
  }

  /** Returns the identifiers of this element at this replica. */
  identifiersOf(replica, element) {
    return [...(this.#elements[replica].get(element) ?? [])];
  }

  /** Returns the elements that have an identifier at this replica. */
  elementsOf(replica) {
    const entries = [...this.#elements[replica].entries()];
    return entries.filter(([, observed]) => observed.size > 0).map(([element]) => element);
  }

  /** Records the effect of the update with this label, and applies it at the replica that issued it. */
  issue(replica, label, effect) {
    this.#effects.set(label, effect);
    this.deliver(replica, label);
  }

  /** Applies the update with this label at this replica. */
  deliver(replica, label) {
    const { element, identifiers, isAddition } = this.#effects.get(label);
    const observed = this.#elements[replica].get(element) ?? new Set();
    for (const it of identifiers) isAddition ? observed.add(it) : observed.delete(it);
    this.#elements[replica].set(element, observed);
  }
}
