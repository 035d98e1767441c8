// What replicas return: results that cannot be reported, and messages and states, which must not change.
import { inspect } from "node:util";

const REMEDIES = { message: "return a copy, and change no received message", state: "return a copy" };

/** What a replica returned cannot be used. `failure` is the cause of the run's failure. */
export class Unusable extends Error {
  failure = [];
}

/** A read's result that the text format cannot represent. The `cause` is `NotRepresentable`. */
export class UnusableResult extends Unusable {
  constructor(value, expected, cause) {
    super(`returned ${inspect(value)}: expected ${expected}`, { cause });
    this.failure = ["returned", value === null ? "null" : typeof value];
  }
}

/** A message or a state that is not what it was when a replica returned it. */
export class Changed extends Unusable {
  constructor(what, number, before, now) {
    super(`failed: ${what} ${number} changed after it was returned; ${REMEDIES[what]}`);
    this.failure = ["changed", what];
    Object.assign(this, { what, number, change: `, as ${before}, and is ${now} now` });
  }
}

/** A message or a state, with its JSON when a replica returned it. */
export class Returned {
  #what;
  #number;
  #shown;

  constructor(what, number, value) {
    this.value = value;
    this.#what = what;
    this.#number = number;
    this.#shown = shown(value);
  }

  /** Returns the value. Throws `Changed` if its JSON is another one now. */
  requireUnchanged() {
    const now = shown(this.value);
    if (now !== undefined && this.#shown !== undefined && now !== this.#shown) {
      throw new Changed(this.#what, this.#number, this.#shown, now);
    }
    return this.value;
  }
}

/** Returns the JSON of a value, with what a Map or a Set holds, or undefined if there is none. */
function shown(value) {
  try {
    return JSON.stringify(value, (_, it) => {
      if (it instanceof Map || it instanceof Set) return [...it];
      return typeof it === "bigint" ? `${it}n` : it;
    });
  } catch {
    return undefined;
  }
}
