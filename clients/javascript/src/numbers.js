// The numbers and names that represent the user's values in the text format.
import { inspect, isDeepStrictEqual } from "node:util";
import { copied } from "./copies.js";
import { NotRepresentable } from "./errors.js";

// The largest number of the text format.
const MAX_NUMBER = 4_294_967_295;
// The number of a first clock that is too large. It leaves room for clocks that are slightly earlier.
const NUMBER_OF_LARGE_CLOCK = 1 << 28;
export const MAX_REPLICAS = 64;
// The largest number of commands of a history.
export const MAX_COMMANDS = 1_048_576;
const NAME = /^[a-z][a-z0-9]{0,15}$/;
const RESERVED_NAMES = ["verdict", "join"];

/** A map whose keys are anything; arrays are one key if they have the same JSON. */
export class KeyMap {
  #things = new Map();
  // For the JSON of each array, the array and its value.
  #arrays = new Map();

  get size() {
    return this.#things.size + this.#arrays.size;
  }

  get(key) {
    return Array.isArray(key) ? this.#arrays.get(JSON.stringify(key))?.[1] : this.#things.get(key);
  }

  set(key, value) {
    if (Array.isArray(key)) this.#arrays.set(JSON.stringify(key), [key, value]);
    else this.#things.set(key, value);
  }

  /** Yields each key with its value. */
  *entries() {
    yield* this.#things.entries();
    yield* this.#arrays.values();
  }

  /** Returns a map with the same keys, each with the result of `copyValue` for its value. */
  copy(copyValue) {
    const copied = new KeyMap();
    for (const [key, value] of this.entries()) copied.set(key, copyValue(value));
    return copied;
  }
}

/** Numbers for things, from 1 up, in the order of their first use. */
export class Numbering {
  #numbers = new KeyMap();
  #things = [];

  /** Returns the number of this thing, which is a new one at its first use. */
  numberOf(thing) {
    let number = this.#numbers.get(thing);
    if (number === undefined) {
      number = this.#things.push(thing);
      this.#numbers.set(thing, number);
    }
    return number;
  }

  /** Returns a new number that represents nothing else. */
  reserve() {
    return this.#things.push(undefined);
  }

  /** Returns the thing with this number, or undefined if the number was reserved. */
  thingOf(number) {
    return this.#things[number - 1];
  }
}

/**
 * Numbers for values of any sort, from 1 up, in the order of their first use. Values that are equal by Node's
 * `isDeepStrictEqual` have one number.
 */
export class ValueNumbering {
  // For the JSON of each value, copies of the values that have it, with their numbers.
  #known = new Map();
  #things = [];

  /** Returns the number of this value, which is a new one at its first use. */
  numberOf(value) {
    const text = sortedJson(value);
    const candidates = this.#known.get(text) ?? [];
    const found = candidates.find(({ kept }) => isDeepStrictEqual(kept, value));
    if (found !== undefined) return found.number;
    const kept = keptCopy(value);
    const number = this.#things.push(kept);
    this.#known.set(text, [...candidates, { kept, number }]);
    return number;
  }

  /** Returns the value with this number, as it was at its first use. */
  thingOf(number) {
    return this.#things[number - 1];
  }
}

/** Returns a copy of a value, since what a read returned may change later. */
function keptCopy(value) {
  const shown = inspect(value);
  const kept = typeof value === "symbol" ? value : copied(value, shown, "a value of plain data");
  if (isDeepStrictEqual(kept, value)) return kept;
  throw new NotRepresentable(`${shown} is not equal to a copy of itself: expected plain data`);
}

/** Returns a text that equal values have in common: JSON, with the keys of objects in ascending order. */
function sortedJson(value) {
  try {
    return JSON.stringify(value, (_, it) => {
      if (typeof it === "bigint") return String(it);
      if (typeof it !== "object" || it === null || Array.isArray(it)) return it;
      return Object.fromEntries(Object.entries(it).sort(([one], [other]) => (one < other ? -1 : 1)));
    }) ?? typeof value;
  } catch {
    return "";
  }
}

/** Numbers for clocks: the clocks themselves, or, if the first one is too large, their distance to it. */
export class Clocks {
  #offset;

  /** Returns the number of this clock. */
  numberOf(clock) {
    if (this.#offset === 0n && clock >= 1 && clock <= MAX_NUMBER && Number.isInteger(clock)) return clock;
    if (typeof clock !== "bigint" && !Number.isSafeInteger(clock)) {
      throw new NotRepresentable(
        `the clock ${inspect(clock)} is not a whole number: convert clocks to whole numbers in the same order`,
      );
    }
    if (this.#offset === undefined) {
      this.#offset = clock > MAX_NUMBER ? BigInt(clock) - BigInt(NUMBER_OF_LARGE_CLOCK) : 0n;
    }
    const number = this.#offset === 0n ? Number(clock) : Number(BigInt(clock) - this.#offset);
    if (number < 1 || number > MAX_NUMBER) {
      const problem = number < 1 ? "too early" : "too late";
      const [first, last] = [this.#offset + 1n, this.#offset + BigInt(MAX_NUMBER)];
      throw new NotRepresentable(
        `the clock ${clock} is ${problem}: this history can represent the clocks from ${first} to ${last}`,
      );
    }
    return number;
  }

  /** Returns the clock with this number. */
  clockOf(number) {
    return BigInt(number) + (this.#offset ?? 0n);
  }
}

/** Numbers for clocks that are all known: their ranks, so that clocks of any size keep their order. */
export class RankedClocks {
  #clocks;
  #ranks;

  /** The clocks are bigints. */
  constructor(clocks) {
    this.#clocks = [...new Set(clocks)].sort((one, other) => (one < other ? -1 : 1));
    this.#ranks = new Map(this.#clocks.map((clock, index) => [clock, index + 1]));
  }

  /** Returns the number of this clock, which is one of those that are known. */
  numberOf(clock) {
    return this.#ranks.get(clock);
  }

  /** Returns the clock with this number. */
  clockOf(number) {
    return this.#clocks[number - 1];
  }
}

const isName = (key) => typeof key === "string" && NAME.test(key) && !RESERVED_NAMES.includes(key);

function freeNames(taken) {
  return Array.from({ length: 2 * MAX_REPLICAS }, (_, number) => `r${number}`).filter((it) => !taken.includes(it));
}

/**
 * The replicas in the order in which the type breaks ties, lowest first, with their names in the text format. `keys`
 * are what the user calls them. The initial replicas come first, and those that joined follow.
 */
export class Replicas {
  #indexes = new KeyMap();

  constructor(replicas) {
    if (typeof replicas?.[Symbol.iterator] !== "function" || typeof replicas === "string") {
      throw new NotRepresentable(`the replicas are ${inspect(replicas)}: expected a list of their names`);
    }
    this.keys = [...replicas];
    this.keys.forEach((it, index) => this.#indexes.set(it, index));
    const areDistinct = this.keys.every((it, index) => this.#indexes.get(it) === index);
    if (this.keys.length < 1 || this.keys.length > MAX_REPLICAS || !areDistinct) {
      const keys = inspect(this.keys);
      throw new NotRepresentable(`expected 1 to ${MAX_REPLICAS} replicas with distinct names, got ${keys}`);
    }
    const free = freeNames(this.keys);
    this.names = this.keys.map((it) => (isName(it) ? it : free.shift()));
    this.initialNames = [...this.names];
  }

  /** Throws `NotRepresentable` if this replica cannot join. */
  checkJoin(replica) {
    if (this.#indexes.get(replica) !== undefined) {
      const reason = "a replica of this name exists, so choose another name";
      throw new NotRepresentable(`${inspect(replica)} cannot join: ${reason}`);
    }
    if (this.keys.length === MAX_REPLICAS) {
      const reason = `the history has ${MAX_REPLICAS} replicas, which is the maximum; use a new Recorder`;
      throw new NotRepresentable(`${inspect(replica)} cannot join: ${reason}`);
    }
  }

  /** Adds this replica as the last one. */
  join(replica) {
    this.checkJoin(replica);
    const isFree = isName(replica) && !this.names.includes(replica);
    this.names.push(isFree ? replica : freeNames(this.names)[0]);
    this.#indexes.set(replica, this.keys.length);
    this.keys.push(replica);
  }

  /** Returns the number of this replica, counted from 0. */
  indexOf(replica) {
    const index = this.#indexes.get(replica);
    if (index !== undefined) return index;
    throw new NotRepresentable(`unknown replica ${inspect(replica)}: expected one of ${inspect(this.keys)}`);
  }

  /** Returns the number of this replica, or undefined if there is none. */
  findIndex(replica) {
    return this.#indexes.get(replica);
  }

  /** Returns what the user calls the replica of this name. */
  keyOf(name) {
    return this.keys[this.names.indexOf(name)];
  }
}
