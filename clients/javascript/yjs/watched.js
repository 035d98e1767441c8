// One object of several documents: what each of them did to it and received, and the reads of what it shows.
import { clockOf, isRemoved, structAt, typeOf } from "./items.js";

const ignore = () => {};

/**
 * A shared type, or a part of it. The changes of one transaction of one document are a message. A document has received
 * a message when its state vector and its removed items say so. The message is reported as delivered once those are
 * that its sender had, so that deliveries are causal also if those of Yjs are not. A document that shows more than what
 * was reported as delivered is not read until then.
 */
export class WatchedObject {
  /** The recorder, or null before `begin()`. */
  recorder = null;
  /** The number of reads that were not reported since the document showed a message before those that it needs. */
  held = 0;
  /** Whether a read was too long to be reported. */
  isTooLong = false;
  #createRecorder;
  // The updates and deliveries before `begin()`.
  #early = [];
  #replicas;
  #key;
  #view;
  // The messages in the order in which they were made, which is causal, and those of each replica.
  #messages = [];
  #sent;
  // For each replica, how many messages of each other one were reported as delivered to it, and of its own as issued.
  #delivered;
  // Whether the replica shows what was reported as delivered to it, and no more.
  #isClosed;

  /**
   * `label` describes it, `kind` is that of its history, `key` finds its shared type in a document, and `view` says how
   * it changes and what it shows.
   */
  constructor({ label, kind, key, view, replicas, createRecorder }) {
    this.label = label;
    this.kind = kind;
    this.#key = key;
    this.#view = view;
    this.#replicas = replicas;
    this.#createRecorder = createRecorder;
    this.#sent = replicas.map(() => []);
    this.#delivered = replicas.map(() => replicas.map(() => 0));
    this.#isClosed = replicas.map(() => true);
  }

  /** Reports what there is so far, and from now on each update, delivery and read. Reads before it are left out. */
  begin() {
    if (this.recorder !== null) return;
    this.recorder = this.#createRecorder();
    for (const [method, parameters] of this.#early.splice(0)) this.#record(method, ...parameters);
  }

  // A failed report is thrown when the recorder is closed.
  #record(method, ...parameters) {
    if (this.recorder === null) this.#early.push([method, parameters]);
    else this.recorder[method](...parameters).catch(ignore);
  }

  /** Reports what this replica did in a local transaction. */
  change(replica, changes) {
    const type = typeOf(this.#replicas[replica].doc, this.#key);
    if (type === undefined || isRemoved(type)) return;
    if (!this.#isClosed[replica]) this.#refresh(replica);
    const needs = this.#needsOf(replica);
    const { operations, removed } = this.#view.changeOf(replica, type, changes);
    if (operations.length === 0) return;
    const added = rangeOf(changes.inserted);
    const message = { sender: replica, sequence: needs[replica], needs, added, removed, operations };
    for (const it of removed) it.removals.push(message);
    message.number = this.#messages.push(message);
    this.#sent[replica].push(message);
    this.#advance(replica);
  }

  /** Reports what a transaction brought to this replica. Returns whether there was anything. */
  receive(replica) {
    const hasMoved = this.#advance(replica);
    this.#refresh(replica);
    return hasMoved;
  }

  /** Finds out whether the replica shows what was reported as delivered to it, and no more. */
  #refresh(replica) {
    this.#isClosed[replica] = this.#sent.every((messages, sender) => {
      const missing = messages.slice(this.#delivered[replica][sender]);
      return sender === replica ? missing.length === 0 : !missing.some((it) => this.#isVisible(it, replica));
    });
  }

  /** Reports what this replica shows, or the values that its user sees in their place. */
  read(replica, shown) {
    if (!this.#isClosed[replica]) this.#refresh(replica);
    if (!this.#isClosed[replica]) {
      this.held += 1;
      return;
    }
    const type = typeOf(this.#replicas[replica].doc, this.#key);
    if (type !== undefined && !isRemoved(type)) this.#report(replica, type, shown);
  }

  /**
   * Ends the history. If the run is complete, each message is reported as delivered to each replica, so that one that
   * lacks a message is found by its read.
   */
  finish(isComplete) {
    if (isComplete) {
      for (const it of this.#messages) if (!this.#isIssued(it)) this.#issueLate(it);
    }
    for (const [replica, { doc }] of this.#replicas.entries()) {
      const type = typeOf(doc, this.#key);
      if (this.#wasRemoved(doc, type)) continue;
      if (isComplete) this.#complete(replica, type);
      else this.read(replica);
    }
  }

  /** Returns whether the document has removed the object. Then it may still have the item that held it. */
  #wasRemoved(doc, type) {
    const { id } = this.#key;
    if (type !== undefined) return isRemoved(type);
    return id !== undefined && structAt(doc, id.client, id.clock) !== undefined;
  }

  /** Reports all messages as delivered to this replica, and what it shows. */
  #complete(replica, type) {
    for (const it of this.#messages) if (!this.#isDelivered(it, replica)) this.#deliverLate(it, replica);
    this.#report(replica, type);
  }

  #report(replica, type, shown) {
    if (this.recorder === null) return;
    const value = this.#view.valueOf(replica, type, shown);
    if (value === undefined) this.isTooLong = true;
    else this.#record("read", this.#replicas[replica].name, value);
  }

  /** Returns how many messages of each replica a change at this one follows, by itself or by another one. */
  #needsOf(replica) {
    const direct = this.#sent.map((messages, sender) => {
      if (sender === replica) return messages.length;
      const delivered = this.#delivered[replica][sender];
      if (this.#isClosed[replica]) return delivered;
      const last = messages.slice(delivered).findLastIndex((it) => this.#isVisible(it, replica));
      return delivered + last + 1;
    });
    const last = direct.flatMap((count, sender) => this.#sent[sender][count - 1] ?? []);
    return direct.map((count, sender) => Math.max(count, ...last.map((it) => it.needs[sender])));
  }

  /** Reports all that can be reported at this replica, and then at those that waited for it. */
  #advance(first) {
    const queue = [first];
    let hasMoved = false;
    while (queue.length > 0) {
      const replica = queue.shift();
      for (let it = this.#next(replica); it !== undefined; it = this.#next(replica)) {
        hasMoved ||= replica === first;
        if (it.sender === replica) {
          this.#issue(it);
          this.#replicas.forEach((_, other) => other !== replica && queue.push(other));
        } else {
          this.#deliver(it, replica);
        }
      }
    }
    return hasMoved;
  }

  /**
   * Returns a message that can be reported at this replica, or undefined. One of its own that waits is reported before
   * those that it does not follow.
   */
  #next(replica) {
    const delivered = this.#delivered[replica];
    const own = this.#sent[replica][delivered[replica]];
    return this.#sent.map((messages, sender) => messages[delivered[sender]]).find((it) => {
      if (it === undefined || !it.needs.every((count, sender) => count <= delivered[sender])) return false;
      if (own !== undefined && it !== own && it.sequence >= own.needs[it.sender]) return false;
      return it.sender === replica || (this.#isIssued(it) && this.#isPresent(it, replica));
    });
  }

  #isIssued({ sender, sequence }) {
    return sequence < this.#delivered[sender][sender];
  }

  #isDelivered({ sender, sequence }, replica) {
    return sequence < this.#delivered[replica][sender];
  }

  /** Returns whether the document has all of a message. */
  #isPresent({ added, removed }, replica) {
    const { doc } = this.#replicas[replica];
    const hasAdded = added === undefined || clockOf(doc, added.client) >= added.end;
    return hasAdded && removed.every((it) => isGone(doc, it));
  }

  /** Returns whether the document has a part of a message, other than removals that were reported in another one. */
  #isVisible({ added, removed }, replica) {
    const { doc } = this.#replicas[replica];
    if (added !== undefined && clockOf(doc, added.client) > added.start) return true;
    const isReported = (it) => it.removals.some((message) => this.#isDelivered(message, replica));
    return removed.some((it) => isGone(doc, it) && !isReported(it));
  }

  #issue(message) {
    this.#delivered[message.sender][message.sender] += 1;
    const { name } = this.#replicas[message.sender];
    this.#record("update", name, message.operations, { message: message.number });
  }

  #deliver(message, replica) {
    this.#delivered[replica][message.sender] += 1;
    this.#record("deliver", this.#replicas[replica].name, message.number);
  }

  /** Reports a message that its sender made when it lacked others. */
  #issueLate(message) {
    const { sender, needs } = message;
    for (const it of this.#messages) {
      if (it.sequence < needs[it.sender] && !this.#isDelivered(it, sender)) this.#deliverLate(it, sender);
    }
    this.#issue(message);
  }

  #deliverLate(message, replica) {
    const { name } = this.#replicas[replica];
    if (!this.#isPresent(message, replica)) {
      this.recorder?.note(`${name} has not applied all of message ${message.number} at the end of the run`);
    }
    this.#deliver(message, replica);
  }
}

const isGone = (doc, { client, clock }) => structAt(doc, client, clock)?.deleted === true;

/** Returns the client of these items, which are in the order of their clocks, and where their clocks begin and end. */
function rangeOf(items) {
  if (items.length === 0) return undefined;
  const [{ client, clock: start }, last] = [items[0], items.at(-1)];
  return { client, start, end: last.clock + last.length };
}
