// Which updates were delivered to each replica, and which messages wait for others.
import { LISTS } from "./operations.js";

// The methods that insert an element, which is their second argument, and those that remove their first one.
export const INSERTING = ["insertAfter", "insert", "insertAt"];
export const REMOVING = ["remove", "delete", "removeAt"];

/**
 * The updates that were delivered to each replica, those that each update sees, and the visible list elements.
 *
 * An update is delivered to a replica once all that it sees were delivered there, so the updates of one replica are
 * delivered in their order, and a count represents them. A message that arrives earlier waits.
 */
export class DeliveryState {
  #kind;
  // For each update its replica, its position among that replica's updates, and the counts of those that it sees.
  #origins = new Map();

  constructor(kind, replicas) {
    this.#kind = kind;
    // For each replica, how many updates of each other one were delivered to it.
    this.delivered = Array.from({ length: replicas }, () => Array(replicas).fill(0));
    this.issued = Array.from({ length: replicas }, () => []);
    this.visible = Array.from({ length: replicas }, () => []);
    // For each replica, the messages that arrived before one on which they depend, in the order of arrival.
    this.waiting = Array.from({ length: replicas }, () => []);
  }

  /** Returns whether the update is new, and the replica shows the element that a list's update names. */
  canUpdate({ replica, number, arguments: [first] }) {
    if (this.#origins.has(number)) return false;
    return !LISTS.includes(this.#kind) || first === null || this.visible[replica].includes(first);
  }

  /** Records that the replica of this step issues its update. */
  update(step) {
    const issued = this.issued[step.replica];
    const seen = [...this.delivered[step.replica]];
    this.#origins.set(step.number, { issuer: step.replica, position: issued.length, seen });
    issued.push(step);
    this.deliver(step.replica, step.number);
  }

  /** Returns whether all that the update sees, and not the update itself, was delivered to the replica. */
  canDeliver(replica, update) {
    const origin = this.#origins.get(update);
    if (origin === undefined) return false;
    const delivered = this.delivered[replica];
    return delivered[origin.issuer] === origin.position && origin.seen.every((it, at) => it <= delivered[at]);
  }

  /** Returns whether the message of this update has not arrived at the replica yet. */
  canArrive(replica, update) {
    const isKnown = this.#origins.has(update);
    return isKnown && !this.hasDelivered(replica, update) && !this.waiting[replica].includes(update);
  }

  /** Returns whether the update was delivered to the replica. */
  hasDelivered(replica, update) {
    const { issuer, position } = this.#origins.get(update);
    return position < this.delivered[replica][issuer];
  }

  /** Returns whether the message of this update arrived at the replica, from another one. */
  canRepeat(replica, update) {
    const origin = this.#origins.get(update);
    if (origin === undefined || origin.issuer === replica) return false;
    return this.hasDelivered(replica, update) || this.waiting[replica].includes(update);
  }

  /** Returns the updates whose messages arrived at the replica. */
  repeatable(replica) {
    const delivered = this.issued.flatMap((issued, sender) =>
      sender === replica ? [] : issued.slice(0, this.delivered[replica][sender]).map((it) => it.number),
    );
    return [...delivered, ...this.waiting[replica]];
  }

  /** Returns the first update that this one sees and that was not delivered to the replica, or 0. */
  missingCause(replica, update) {
    const { issuer, position, seen } = this.#origins.get(update);
    const missing = this.issued.flatMap((issued, sender) => {
      const own = this.delivered[replica][sender];
      return own < (sender === issuer ? position : seen[sender]) ? [issued[own].number] : [];
    });
    return missing.length === 0 ? 0 : Math.min(...missing);
  }

  /** Records that the message arrives, and returns the updates that are delivered thereby, in their order. */
  arrive(replica, update) {
    const waiting = this.waiting[replica];
    waiting.push(update);
    const freed = [];
    for (;;) {
      const ready = waiting.findIndex((it) => this.canDeliver(replica, it));
      if (ready < 0) return freed;
      const [number] = waiting.splice(ready, 1);
      this.deliver(replica, number);
      freed.push(number);
    }
  }

  /** Records that the update is applied at the replica. */
  deliver(replica, update) {
    const { issuer, position } = this.#origins.get(update);
    const step = this.issued[issuer][position];
    const [first, element] = step.arguments;
    this.delivered[replica][issuer] = position + 1;
    if (INSERTING.includes(step.method)) this.visible[replica].push(element);
    if (REMOVING.includes(step.method)) this.visible[replica] = this.visible[replica].filter((it) => it !== first);
  }

  /** Returns whether the sender has an update that the replica lacks. */
  isBehind(replica, sender) {
    const theirs = this.delivered[sender];
    return this.delivered[replica].some((own, at) => own < theirs[at]);
  }

  /** Records that the replica, which is new, joins with a copy of the source's state. */
  join(replica, source) {
    this.delivered[replica] = [...this.delivered[source]];
    this.visible[replica] = [...this.visible[source]];
    this.waiting[replica] = [...this.waiting[source]];
  }

  /** Returns how many updates of each replica are in the state of this one. */
  counts(replica) {
    return [...this.delivered[replica]];
  }

  /** Records that the replica merges a state with these counts. */
  merge(replica, counts) {
    const missing = this.issued.flatMap((issued, at) => issued.slice(this.delivered[replica][at], counts[at]));
    // Updates are numbered in the order in which they were issued, so this order is causal.
    const updates = missing.map((it) => it.number).sort((one, other) => one - other);
    for (const it of updates) this.deliver(replica, it);
  }
}
