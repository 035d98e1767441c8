// The reports of a recorder: labels, messages and deliveries.
import { inspect } from "node:util";
import { NotRepresentable } from "./errors.js";
import { FailureReport, createError } from "./failure_report.js";
import { KeyMap } from "./numbers.js";
import { ObservedIdentifiers } from "./observed.js";
import * as operations from "./operations.js";
import { shownElements } from "./shown.js";

// The number of known messages that an error names.
const SHOWN_MESSAGES = 3;

/** The updates that had been delivered to a replica at one moment, as a count for each replica. */
export class Seen {
  /** What messages say of the moment, behind the name of the replica. */
  moment = "";

  constructor(replica, counts) {
    this.replica = replica;
    this.counts = counts;
  }
}

/**
 * What a history has so far. A report returns a promise to wait for if the monitor's window is full, and undefined
 * otherwise.
 */
export class Reports {
  /** The error of the first report that failed, or null. */
  failure = null;
  #translator;
  #monitor;
  #postLine;
  #path;
  // For each replica, the beginning of its lines.
  #prefixes;
  #labels = 0;
  #commands = 0;
  // Lines that a failure report prints before the command of a number, which say whose state is merged.
  #notes = new Map();
  // For each replica, how many updates of each other one were delivered to it.
  #delivered;
  // For each replica, the labels of its updates.
  #updates;
  // The updates of each message: the first label, their replica, the first position among that replica's updates, and
  // their number.
  #messages = new KeyMap();
  #observed;

  constructor(translator, monitor, path) {
    this.#translator = translator;
    this.#monitor = monitor;
    this.#postLine = "postLine" in monitor
      ? (line, expected) => monitor.postLine(line, expected)
      : (line, expected) => monitor.post(line.slice(0, -1), expected);
    this.#path = path;
    const { names } = translator.replicas;
    this.#prefixes = names.map((it) => `${it} `);
    this.#delivered = names.map(() => names.map(() => 0));
    this.#updates = names.map(() => []);
    this.#observed = translator.kind === "orset" ? new ObservedIdentifiers(names.length, () => new KeyMap()) : null;
  }

  /** Throws the failure, if there is one. */
  throwFailure() {
    if (this.failure === null && this.#monitor.unexpected !== null) {
      const { command, reply } = this.#monitor.unexpected;
      const text = this.#monitor.history(command + 1);
      this.failure = createError(this.failureReport(text), text, reply, this.#path, this.#monitor.program);
    }
    if (this.failure !== null) throw this.failure;
  }

  /**
   * Returns a report on this text of this history. `places`, if any, has the place of each command in a log, and `calls`
   * the call of each message's update of any type, by the message's key.
   */
  failureReport(text, { places, calls } = {}) {
    const keys = new Map();
    for (const [key, { label, count }] of this.#messages.entries()) {
      for (let at = 0; at < count; at += 1) keys.set(label + at, key);
    }
    return new FailureReport(this.#translator, text, keys, this.#notes, { places, calls });
  }

  /** Adds a line that a failure's message shows before the next report. */
  note(text) {
    this.#notes.set(this.#commands, [...(this.#notes.get(this.#commands) ?? []), text]);
  }

  /** Returns the updates that were delivered to the replica so far. */
  seen(replica) {
    return new Seen(replica, [...this.#delivered[this.#translator.replicas.indexOf(replica)]]);
  }

  /** Reports an operation of this replica, or a list of operations with one message. */
  update(replica, operation, message) {
    if (operation === undefined || operation === null) return this.issue(replica, this.#unsaid(), message);
    if (!Array.isArray(operation)) return this.issue(replica, operation, message);
    this.#requireNew(message);
    const first = { label: this.#labels, issuer: replica, position: this.#delivered[replica][replica] };
    const full = operation.map((it) => this.issue(replica, it, undefined));
    if (message !== undefined) this.#messages.set(message, { ...first, count: operation.length });
    return whenAll(full);
  }

  /** Returns the operation of an update whose effect is not reported. */
  #unsaid() {
    const { kind } = this.#translator;
    if (kind === "any") return operations.update();
    const expected = operations.operationsOf(kind).join(" or ");
    throw new NotRepresentable(`an update of the kind ${kind} needs its operation: expected ${expected}`);
  }

  /** Reports an operation of this replica. */
  issue(replica, operation, message) {
    this.#requireNew(message);
    if (this.#observed === null) {
      if (operation?.identifiers !== undefined) {
        const given = inspect(operation.identifiers);
        throw new NotRepresentable(`the kind ${this.#translator.kind} has no identifiers: got ${given}`);
      }
      return this.issueFields(replica, this.#translator.operationFields(replica, operation), message);
    }
    this.#translator.requireOperation(operation?.word);
    const { value: element, word, stamp } = operation;
    if (stamp !== undefined) {
      const named = word === "add" ? "identifier" : "identifiers";
      throw new NotRepresentable(
        `an OR-Set has no stamps, and ${inspect(stamp)} is one: pass \`${named}\`, or nothing`,
      );
    }
    const identifiers = this.#identifierNumbers(replica, operation);
    const fields = this.#translator.operationFields(replica, { word, value: element, identifiers });
    this.#observed.issue(replica, this.#labels, { element, identifiers, isAddition: word === "add" });
    return this.issueFields(replica, fields, message);
  }

  /** Reports an update of this replica, given by its line without the name. */
  issueFields(replica, fields, message) {
    const label = this.#labels;
    const own = this.#delivered[replica];
    const position = own[replica];
    if (message !== undefined) {
      this.#requireNew(message);
      this.#messages.set(message, { label, issuer: replica, position, count: 1 });
    }
    own[replica] = position + 1;
    this.#labels = label + 1;
    this.#updates[replica].push(label);
    this.#commands += 1;
    return this.#postLine(`${this.#prefixes[replica]}${fields}\n`, `ok ${label}`);
  }

  #requireNew(message) {
    if (message === undefined || this.#messages.get(message) === undefined) return;
    throw new NotRepresentable(`the message ${inspect(message)} was reported before: each message needs its own key`);
  }

  /** Returns the numbers of the identifiers of an OR-Set's operation. */
  #identifierNumbers(replica, { word, value, identifiers }) {
    const numbering = this.#translator.identifiers;
    if (identifiers !== undefined) return identifiers.map((it) => numbering.numberOf(it));
    return word === "add" ? [numbering.reserve()] : this.#observed.identifiersOf(replica, value);
  }

  /** Reports that a set removes all that the replica shows. */
  clear(replica, stamps, message) {
    const { kind } = this.#translator;
    if (kind !== "lwwset" && kind !== "orset") {
      throw new NotRepresentable(`clear is not an operation of the kind ${kind}: it is one of sets`);
    }
    const elements = this.#shown(replica);
    if (this.#observed !== null) {
      return this.update(replica, elements.map((it) => operations.remove(it)), message);
    }
    const pairs = stampedElements(elements, stamps);
    if (pairs.length !== elements.length) {
      throw new NotRepresentable(
        `${pairs.length} stamps for the ${elements.length} elements that the replica shows, ${inspect(elements)}: ` +
          "expected one for each, or a mapping from elements to stamps",
      );
    }
    return this.update(replica, pairs.map(([element, stamp]) => operations.remove(element, { stamp })), message);
  }

  /** Returns the elements of a set that the replica shows by the reports, in the order of their numbers. */
  #shown(replica) {
    const translator = this.#translator;
    if (this.#observed !== null) {
      const numberOf = (it) => translator.numberOf(it);
      return this.#observed.elementsOf(replica).sort((one, other) => numberOf(one) - numberOf(other));
    }
    const { names } = translator.replicas;
    const commands = this.#monitor.history().split("\n").slice(2, -1);
    return shownElements(commands, names[replica], names).map((it) => translator.thingOf(it));
  }

  /** Reports that the replica applies the message of this key. */
  deliver(replica, message) {
    const { label, issuer, position, count } = this.#findMessage(message);
    if (count === 1) return this.#deliverLabel(replica, label, issuer, position);
    return whenAll(
      Array.from({ length: count }, (_, at) => this.#deliverLabel(replica, label + at, issuer, position + at)),
    );
  }

  #deliverLabel(replica, label, issuer, position) {
    const delivered = this.#delivered[replica];
    if (position < delivered[issuer]) return undefined;
    delivered[issuer] = position + 1;
    if (this.#observed !== null) this.#observed.deliver(replica, label);
    this.#commands += 1;
    return this.#postLine(`${this.#prefixes[replica]}got ${label}\n`, `got ${label}`);
  }

  /** Reports that the replica merges a state, given by its messages or by what another replica had `seen`. */
  merge(replica, messages) {
    const merged = messages instanceof Seen ? this.#missing(replica, messages) : this.#labelsOf(messages);
    // Labels are numbered in the order of the reports, so this order is causal.
    merged.sort((one, other) => one.label - other.label);
    return whenAll(merged.map((it) => this.#deliverLabel(replica, it.label, it.issuer, it.position)));
  }

  #labelsOf(messages) {
    return Array.from(messages, (it) => this.#findMessage(it)).flatMap(({ label, issuer, position, count }) =>
      Array.from({ length: count }, (_, at) => ({ label: label + at, issuer, position: position + at })),
    );
  }

  /** Returns the updates of a state that the replica lacks. */
  #missing(replica, seen) {
    const name = inspect(this.#translator.replicas.keys[replica]);
    this.note(`${name} merges the state of ${inspect(seen.replica)}${seen.moment}`);
    const delivered = this.#delivered[replica];
    return seen.counts.flatMap((count, issuer) => {
      const first = delivered[issuer];
      return this.#updates[issuer].slice(first, count).map((label, at) => ({ label, issuer, position: first + at }));
    });
  }

  /** Reports that a new replica joins from the source. */
  join(replica, source) {
    const line = this.#translator.join(replica, source);
    this.#prefixes.push(`${this.#translator.replicas.names.at(-1)} `);
    const index = this.#delivered.push([...this.#delivered[source]]) - 1;
    for (const delivered of this.#delivered) delivered.push(0);
    this.#updates.push([]);
    this.#observed?.join(source);
    this.#commands += 1;
    return this.#postLine(`${line}\n`, `joined ${index}`);
  }

  /** Reports a read that returned this value. */
  read(replica, value) {
    return this.#postResult(replica, `read ${this.#translator.formatResult(value)}`);
  }

  /** Reports that a list shows these elements in this order, perhaps with others between. */
  part(replica, elements) {
    return this.#postResult(replica, `part ${this.#translator.formatPart(elements)}`);
  }

  #postResult(replica, fields) {
    const label = this.#labels;
    this.#labels = label + 1;
    this.#commands += 1;
    return this.#postLine(`${this.#prefixes[replica]}${fields}\n`, `ok ${label}`);
  }

  #findMessage(message) {
    const found = this.#messages.get(message);
    if (found !== undefined) return found;
    throw new NotRepresentable(
      `no update was reported with the message ${inspect(message)}; ${this.#describeMessages()}: report the update ` +
        "that sends it before its delivery",
    );
  }

  #describeMessages() {
    const shown = [];
    for (const [key] of this.#messages.entries()) if (shown.length < SHOWN_MESSAGES) shown.push(inspect(key));
    const leftOut = this.#messages.size - shown.length;
    if (shown.length === 0) return "none is known";
    return `known are ${shown.join(", ")}${leftOut > 0 ? ` and ${leftOut} more` : ""}`;
  }
}

/** Returns a promise to wait for all of these, or undefined if there is nothing to wait for. */
function whenAll(full) {
  const promises = full.filter((it) => it !== undefined);
  return promises.length === 0 ? undefined : Promise.all(promises);
}

/** Returns the elements that have a stamp, each with it: by their clocks, or in the order of the stamps. */
function stampedElements(elements, stamps) {
  if (typeof stamps?.[Symbol.iterator] === "function" && !(stamps instanceof Map)) {
    const listed = [...stamps];
    return elements.slice(0, listed.length).map((it, at) => [it, listed[at]]);
  }
  const known = new KeyMap();
  for (const [element, stamp] of stamps instanceof Map ? stamps : []) known.set(element, stamp);
  const stampOf = (it) => (stamps instanceof Map ? known.get(it) : stamps?.[String(it)]);
  const clockOf = ([, stamp]) => (Array.isArray(stamp) ? stamp[0] : stamp);
  const pairs = elements.map((it) => [it, stampOf(it)]).filter(([, stamp]) => stamp !== undefined);
  return pairs.sort((one, other) => (clockOf(one) < clockOf(other) ? -1 : 1));
}
