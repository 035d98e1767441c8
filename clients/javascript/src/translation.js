// Translates between operations in the user's names and lines of the text format.
import { inspect } from "node:util";
import { NotRepresentable } from "./errors.js";
import { Clocks, Numbering, Replicas, ValueNumbering } from "./numbers.js";
import { LISTS, operationsOf } from "./operations.js";

export const MIN_COUNT = -2_147_483_648;
export const MAX_COUNT = 2_147_483_647;
// A value of any sort is shown as a whole and in one line: two that differ may do so at any depth.
const WHOLE = { depth: null, compact: true, breakLength: Infinity };

/**
 * The lines of one history, with the user's values that their numbers represent. `nothing` is the result of a
 * register's read before the first write. `clocks` gives the clocks other numbers.
 */
export class Translator {
  identifiers = new Numbering();
  #values;
  #clocks;
  #nothing;
  #operations;
  #formatters = {
    increment: () => "inc",
    decrement: () => "dec",
    write: (replica, operation) => this.#formatWrite(replica, operation),
    add: (replica, operation) => this.#formatChange(replica, operation),
    remove: (replica, operation) => this.#formatChange(replica, operation),
    insertAfter: (replica, operation) => this.#formatInsertion(replica, operation),
    insert: (replica, operation) => this.#formatInsertionBetween(operation),
    update: () => "update",
  };

  constructor(kind, replicas, nothing = null, clocks = new Clocks()) {
    this.#clocks = clocks;
    this.#operations = operationsOf(kind);
    this.kind = kind;
    this.#values = kind === "any" ? new ValueNumbering() : new Numbering();
    this.replicas = new Replicas(replicas);
    this.#nothing = nothing;
  }

  /** Returns the first two lines. */
  header() {
    return `RAH 2 ${this.kind}\nreplicas ${this.replicas.initialNames.join(" ")}\n`;
  }

  /**
   * Returns the line of an update at this replica, without the replica's name. The identifiers of an OR-Set's update
   * are numbers.
   */
  operationFields(replica, operation) {
    this.requireOperation(operation?.word);
    return this.#formatters[operation.word](replica, operation);
  }

  /** Throws `NotRepresentable` if this is not an operation of the kind. */
  requireOperation(word) {
    if (this.#operations.includes(word)) return;
    const expected = this.#operations.join(" or ");
    throw new NotRepresentable(`${word} is not an operation of the kind ${this.kind}: expected ${expected}`);
  }

  /** Returns the number of a value or of an element. */
  numberOf(thing) {
    return this.#values.numberOf(thing);
  }

  /** Returns the value or the element with this number. */
  thingOf(number) {
    return this.#values.thingOf(number);
  }

  /** Adds a replica that joins from the source, and returns the line of the join. */
  join(replica, source) {
    this.replicas.join(replica);
    return `join ${this.replicas.names.at(-1)} ${this.replicas.names[source]}`;
  }

  #formatWrite(replica, operation) {
    if (this.kind === "mvregister") {
      if (operation.stamp === undefined) return `write ${this.#values.numberOf(operation.value)}`;
      throw new NotRepresentable(
        `the writes of the kind mvregister have no stamps: got ${inspect(operation.stamp)}`,
      );
    }
    if (this.#isNothing(operation.value)) {
      throw new NotRepresentable(
        `${inspect(operation.value)} cannot be written, since it represents an unwritten register: ` +
          "pass another `nothing` to the Recorder",
      );
    }
    return `write ${this.#values.numberOf(operation.value)}${this.#formatClock(replica, operation.stamp)}`;
  }

  /** Formats an addition or a removal. */
  #formatChange(replica, operation) {
    return `${operation.word} ${this.#values.numberOf(operation.value)}${this.#formatKey(replica, operation)}`;
  }

  #formatInsertion(replica, operation) {
    const isFirst = operation.anchor === null || operation.anchor === undefined;
    const anchor = isFirst ? 0 : this.#values.numberOf(operation.anchor);
    const element = this.#values.numberOf(operation.value);
    return `after ${anchor} ${element}${this.#formatClock(replica, operation.stamp)}`;
  }

  #formatInsertionBetween({ left, value, right }) {
    const numberOf = (neighbor) => (neighbor === null || neighbor === undefined ? 0 : this.#values.numberOf(neighbor));
    return `insert ${numberOf(left)} ${this.#values.numberOf(value)} ${numberOf(right)}`;
  }

  /** Formats the stamp of an LWW set's update, the identifiers of an OR-Set's update, or nothing for a list. */
  #formatKey(replica, { stamp, identifiers }) {
    if (this.kind === "lwwset") return this.#formatClock(replica, stamp);
    return this.kind === "orset" ? ` #${joinNumbers(sortUnique(identifiers))}` : "";
  }

  #formatClock(replica, stamp) {
    if (stamp === undefined || stamp === null) {
      throw new NotRepresentable("the stamp is missing: pass the clock of the update, or the clock and the replica");
    }
    if (!Array.isArray(stamp)) return ` @${this.#clocks.numberOf(stamp)}`;
    if (this.replicas.indexOf(stamp[1]) !== replica) {
      const key = inspect(this.replicas.keys[replica]);
      throw new NotRepresentable(`the stamp ${inspect(stamp)} names another replica: expected ${key}`);
    }
    return ` @${this.#clocks.numberOf(stamp[0])}`;
  }

  /** Returns the last field of the line of a read that returned this value. */
  formatResult(value) {
    if (this.kind === "counter") {
      const isWhole = typeof value === "bigint" || Number.isInteger(value);
      if (!isWhole || value < MIN_COUNT || value > MAX_COUNT) {
        throw new NotRepresentable(
          `a counter's read returned ${inspect(value)}: expected ${expectedResult(this.kind)}`,
        );
      }
      // Adding 0 turns -0 into 0.
      return String(Number(value) + 0);
    }
    if (this.kind === "register") return this.#isNothing(value) ? "none" : this.#values.numberOf(value);
    if (this.kind === "any") return this.#values.numberOf(value);
    // Of an `mvregister`, a text is one value, and no collection of values.
    const isOneValue = this.kind === "mvregister" && typeof value === "string";
    if (isOneValue || typeof value?.[Symbol.iterator] !== "function") {
      throw new NotRepresentable(`a read returned ${inspect(value)}: expected ${expectedResult(this.kind)}`);
    }
    const numbers = Array.from(value, (it) => this.#values.numberOf(it));
    return joinNumbers(LISTS.includes(this.kind) ? numbers : sortUnique(numbers));
  }

  /** Returns the last field of the line of a partial read of a list, which returned these elements. */
  formatPart(elements) {
    if (this.kind === "list") return this.formatResult(elements);
    throw new NotRepresentable(`part is not a read of the kind ${this.kind}: it is one of the kind list`);
  }

  #isNothing(value) {
    return Object.is(value, this.#nothing) || (this.#nothing === null && value === undefined);
  }

  /** Describes a line in the user's names. `describeLabel` describes the label of a delivery. */
  describe(line, describeLabel) {
    const [name, word, ...fields] = line.split(" ");
    if (isJoin(line)) return `${this.#describeReplica(word)} joins with a copy of ${this.#describeReplica(fields[0])}`;
    const hasClock = fields.at(-1)?.startsWith("@");
    const clock = hasClock ? ` at clock ${this.#clocks.clockOf(fields.pop().slice(1))}` : "";
    return `${this.#describeReplica(name)} ${this.#describeCommand(word, fields, describeLabel)}${clock}`;
  }

  #describeReplica(name) {
    return inspect(this.replicas.keyOf(name));
  }

  #describeValue(number) {
    return inspect(this.#values.thingOf(number));
  }

  #describeCommand(word, fields, describeLabel) {
    if (word === "got") return `receives ${describeLabel(Number(fields[0]))}`;
    if (word === "read") return `reads ${this.#describeResult(fields[0])}`;
    if (word === "after") {
      const anchor = fields[0] === "0" ? "at the beginning" : `behind ${this.#describeValue(fields[0])}`;
      return `inserts ${this.#describeValue(fields[1])} ${anchor}`;
    }
    if (word === "insert") return this.#describeInsertion(...fields);
    if (word === "part") return `shows ${this.#describeResult(fields[0])} in this order, perhaps with others between`;
    if (word === "inc" || word === "dec") return `${word}rements`;
    if (word === "update") return "makes an update";
    const verb = { write: "writes", add: "adds", remove: "removes" }[word];
    const under = fields.length > 1 ? ` under ${this.#describeIdentifiers(fields[1].slice(1))}` : "";
    return `${verb} ${this.#describeValue(fields[0])}${under}`;
  }

  #describeInsertion(left, element, right) {
    const behind = left === "0" ? [] : [`behind ${this.#describeValue(left)}`];
    const before = right === "0" ? [] : [`before ${this.#describeValue(right)}`];
    return [`inserts ${this.#describeValue(element)}`, [...behind, ...before].join(" and ")].join(" ").trimEnd();
  }

  #describeResult(result) {
    const value = this.resultOf(result);
    const isList = !["counter", "register", "any"].includes(this.kind);
    return isList ? `[${value.map((it) => inspect(it)).join(", ")}]` : inspect(value, WHOLE);
  }

  /** Returns the result of a read, from the last field of its line. */
  resultOf(field) {
    if (this.kind === "counter") return Number(field);
    if (this.kind === "register") return field === "none" ? this.#nothing : this.thingOf(field);
    if (this.kind === "any") return this.thingOf(field);
    return parseNumbers(field).map((it) => this.thingOf(it));
  }

  #describeIdentifiers(field) {
    return this.describeIdentifiers(parseNumbers(field));
  }

  /** Describes the identifiers with these numbers. */
  describeIdentifiers(numbers) {
    const things = numbers.map((it) => this.identifiers.thingOf(it));
    return things.map((it) => (it === undefined ? "an unnamed one" : inspect(it))).join(", ") || "none";
  }
}

/** Describes what a read of this kind has to return. A register's may return anything. */
export function expectedResult(kind) {
  if (kind === "counter") return `a whole number from ${MIN_COUNT} to ${MAX_COUNT}`;
  if (kind === "register") return "any value";
  if (kind === "any") return "a value that can be copied";
  return `an array or another iterable of the ${kind === "mvregister" ? "values" : "elements"}`;
}

/** Returns whether a replica joins in this line, which then begins with no name. */
const isJoin = (line) => line.startsWith("join ");
/** Returns whether the line reports an operation, which becomes a label. */
export const isOperation = (line) => !isJoin(line) && line.split(" ", 2)[1] !== "got";
const joinNumbers = (numbers) => numbers.join(",") || "-";
const sortUnique = (numbers) => [...new Set(numbers)].sort((one, other) => one - other);
const parseNumbers = (text) => (text === "-" ? [] : text.split(",").map(Number));
