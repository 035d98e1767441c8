// Reports what replicas do, in the user's own names.
import { inspect } from "node:util";
import { NotRepresentable } from "./errors.js";
import { Monitor } from "./monitor.js";
import * as operations from "./operations.js";
import { Reports } from "./reports.js";
import { Translator } from "./translation.js";
import * as unclosed from "./unclosed.js";

// The largest amount of one `increment` with `by`: the text counts by one.
export const MAX_AMOUNT = 256;
const COUNTING = { increment: "inc", decrement: "dec" };
const NONE = {};
const DONE = Promise.resolve(undefined);

/**
 * A reporter for replicas with any names, given in the order in which the type breaks ties, lowest first.
 *
 * Each call is one step: it runs the act and reports it before the act of another call runs, also if the act is
 * asynchronous. What is known only after the act (an operation, a message's key, a stamp, a value that is read) may be
 * a function, which is called with the result of the act. The first report that fails rejects with `NotLinearizable`
 * or `Refused` as soon as its reply has arrived, and so does each later call. With a `window` of 1 the call itself
 * rejects. The history is then written to the file `history`. A `monitor` receives the lines instead of a program.
 *
 * A recorder that is neither closed nor stopped warns, and lets the process end with status 3, since its last reports
 * were not checked. With `mustClose: false` it does neither.
 */
export class Recorder {
  #translator;
  #monitor;
  #reports;
  #isCounter;
  #openKey;
  #last;

  constructor(kind, replicas, { program, window, history, nothing, monitor, mustClose = true } = {}) {
    this.#translator = new Translator(kind, replicas, nothing);
    this.#monitor = monitor ?? new Monitor(kind, this.#translator.replicas.names, { program, window });
    this.#reports = new Reports(this.#translator, this.#monitor, history);
    this.#isCounter = kind === "counter";
    if (!mustClose) return;
    const description = `the Recorder(${inspect(kind)}, ..) that was created at ${unclosed.placeOf(new Error().stack)}`;
    this.#openKey = unclosed.register(this, description);
  }

  /**
   * Reports an update, and returns the result of the act. `message` is the key that its deliveries name. A list of
   * operations is a composition: it is reported as these operations in their order, with one message. An update of the
   * kind `any` needs no operation: `update(replica, { act, message })`.
   */
  update(replica, operation, options) {
    const isSaid = options !== undefined || !this.#isOptions(operation, "any");
    const { act, message } = (isSaid ? options : operation) ?? NONE;
    const said = isSaid ? operation : undefined;
    return this.#step("update", replica, [said], act, (index, result) =>
      this.#reports.update(index, evaluate(said, result), evaluate(message, result)),
    );
  }

  /** Returns whether this is the options of an update of this kind, in the place of what updates of others have. */
  #isOptions(given, kind) {
    const isPlain = typeof given === "object" && given !== null && !Array.isArray(given) && !("word" in given);
    return isPlain && this.#translator.kind === kind;
  }

  /** Reports that the replica applies the message of this key. A repeated delivery runs the act alone. */
  deliver(replica, message, { act } = NONE) {
    return this.#step("deliver", replica, [message], act, (index, result) =>
      this.#reports.deliver(index, evaluate(message, result)),
    );
  }

  /** Reports that the replica merges a state, given by its messages or by what another replica had `seen`. */
  merge(replica, messages, { act } = NONE) {
    return this.#step("merge", replica, [messages], act, (index, result) =>
      this.#reports.merge(index, evaluate(messages, result)),
    );
  }

  /**
   * Reports that a new replica joins with a copy of the source's state, which the act makes. It is the last replica in
   * the order of ties. A join that is impossible, because the name exists or there are 64 replicas, rejects with
   * `NotRepresentable` before the act, and the history continues without it.
   */
  join(replica, source, { act } = NONE) {
    const check = () => this.#translator.replicas.checkJoin(replica);
    return this.#step("join", source, [], act, (index) => this.#reports.join(replica, index), check);
  }

  /**
   * Reports a read of this value, or of the value that this function returns. Returns the value. That of a set or a
   * list is an iterable of its elements, and that of an `mvregister` one of its values. Of the kind `any` it is a value
   * of any sort, which is equal to another one if `isDeepStrictEqual` of `node:util` says so.
   */
  read(replica, value) {
    const act = typeof value === "function" ? value : () => value;
    return this.#step("read", replica, [value], act, (index, result) => this.#reports.read(index, result));
  }

  /**
   * Reports a read of a part of a list: these elements are shown in this order, perhaps with others between. The
   * elements may be a function, which returns them. Returns the elements. It is for lists of the kind `list` that are
   * too long to be reported as a whole.
   */
  part(replica, elements) {
    const act = typeof elements === "function" ? elements : () => elements;
    return this.#step("part", replica, [elements], act, (index, result) => this.#reports.part(index, result));
  }

  /** Returns the updates that were delivered to the replica so far, for a `merge` of its current state. */
  seen(replica) {
    return this.#reports.seen(replica);
  }

  /** Reports a counter's increment by one, or by an amount from 1 to 256, as that number of increments. */
  increment(replica, options) {
    return this.#count("increment", replica, options);
  }

  /** Reports a counter's decrement by one, or by an amount from 1 to 256, as that number of decrements. */
  decrement(replica, options) {
    return this.#count("decrement", replica, options);
  }

  #count(word, replica, options = NONE) {
    const { by = 1, act, message } = options;
    if (by === 1 && this.#isCounter) {
      return this.#step(word, replica, [], act, (index, result) =>
        this.#reports.issueFields(index, COUNTING[word], evaluate(message, result)),
      );
    }
    if (!Number.isInteger(by) || by < 1 || by > MAX_AMOUNT) {
      return Promise.reject(new NotRepresentable(
        `${describeCall(word, replica, [{ by }])}: the amount ${inspect(by)} cannot be reported, since the monitor ` +
          `counts by one: expected a whole number from 1 to ${MAX_AMOUNT}; report a larger amount in several calls`,
      ));
    }
    const repeated = Array(by).fill(operations[word]());
    return this.#step(word, replica, by === 1 ? [] : [{ by }], act, (index, result) =>
      this.#reports.update(index, repeated, evaluate(message, result)),
    );
  }

  /**
   * Reports a register's write of this value. That of an `mvregister` has no stamp: `write(replica, value, { act,
   * message })`.
   */
  write(replica, value, stamp, options) {
    const isStamp = !this.#isOptions(stamp, "mvregister");
    const { act, message } = (isStamp ? options : stamp) ?? NONE;
    const own = isStamp ? stamp : undefined;
    return this.#step("write", replica, [value, own], act, (index, result) =>
      this.#reports.issue(index, operations.write(value, evaluate(own, result)), evaluate(message, result)),
    );
  }

  /** Reports a set's addition, with the `stamp` of an LWW set or the `identifier` of an OR-Set. */
  add(replica, element, { stamp, identifier, act, message } = NONE) {
    return this.#step("add", replica, [element, ...named("stamp", stamp)], act, (index, result) => {
      const marks = { stamp: evaluate(stamp, result), identifier: evaluate(identifier, result) };
      return this.#reports.issue(index, operations.add(element, marks), evaluate(message, result));
    });
  }

  /** Reports a removal, with the `stamp` of an LWW set or the `identifiers` of an OR-Set. */
  remove(replica, element, { stamp, identifiers, act, message } = NONE) {
    return this.#step("remove", replica, [element, ...named("stamp", stamp)], act, (index, result) => {
      const marks = { stamp: evaluate(stamp, result), identifiers: evaluate(identifiers, result) };
      return this.#reports.issue(index, operations.remove(element, marks), evaluate(message, result));
    });
  }

  /**
   * Reports that a set removes all that the replica shows by the reports, as a removal of each element. Those of an LWW
   * set need `stamps`: a mapping from elements to stamps, or the stamps in the order in which the elements were first
   * used.
   */
  clear(replica, { stamps, act, message } = NONE) {
    return this.#step("clear", replica, named("stamps", stamps), act, (index, result) =>
      this.#reports.clear(index, evaluate(stamps, result), evaluate(message, result)),
    );
  }

  /** Reports a list's insertion directly behind the anchor, or at the start if that is null. */
  insertAfter(replica, anchor, element, stamp, { act, message } = NONE) {
    return this.#step("insertAfter", replica, [anchor, element, stamp], act, (index, result) => {
      const operation = operations.insertAfter(anchor, element, evaluate(stamp, result));
      return this.#reports.issue(index, operation, evaluate(message, result));
    });
  }

  /**
   * Reports an insertion into a list of the kind `list`, between two elements that the replica had: mostly those that
   * it showed on both sides. Null says that there was none, or that it is unknown.
   */
  insert(replica, left, element, right, { act, message } = NONE) {
    return this.#step("insert", replica, [left, element, right], act, (index, result) =>
      this.#reports.issue(index, operations.insert(left, element, right), evaluate(message, result)),
    );
  }

  /** Waits for all replies. Rejects with the failure, if there is one. */
  async settle() {
    await this.#last;
    await this.#monitor.settle();
    this.#throwFailure();
  }

  /**
   * Ends the history and returns the report. Rejects with the failure, if there is one. A `NotRepresentable` that was
   * thrown after an act is thrown again, since no later step was checked.
   */
  async close() {
    unclosed.close(this.#openKey);
    await this.#last;
    try {
      return await this.#monitor.close();
    } finally {
      this.#throwFailure();
    }
  }

  /** Ends the history without waiting for replies. */
  stop() {
    unclosed.close(this.#openKey);
    return this.#monitor.stop();
  }

  /** Returns the text so far, which `ra_monitor check` reads. */
  history() {
    return this.#monitor.history();
  }

  /** Returns the first two lines of the text. */
  header() {
    return this.#translator.header();
  }

  /** Adds a line that a failure's message shows before the next report. */
  note(text) {
    this.#reports.note(text);
  }

  /**
   * Returns a report on this text of this recorder. `calls`, if given, has the call of each message's update of any
   * type, by the message's key.
   */
  failureReport(text, calls) {
    return this.#reports.failureReport(text, { calls });
  }

  /** Runs `before` and the act, and calls `report` with the replica's number and the act's result. */
  #step(word, replica, parameters, act, report, before) {
    if (this.#last !== undefined) {
      return this.#track(this.#last.then(() => this.#run(word, replica, parameters, act, report, before)));
    }
    let ran;
    try {
      ran = this.#run(word, replica, parameters, act, report, before);
    } catch (error) {
      return Promise.reject(error);
    }
    if (ran instanceof Promise) return this.#track(ran);
    return ran === undefined ? DONE : Promise.resolve(ran);
  }

  /** Lets later steps wait for this one. */
  #track(ran) {
    const last = ran.then(ignore, ignore).then(() => {
      if (this.#last === last) this.#last = undefined;
    });
    this.#last = last;
    return ran;
  }

  #run(word, replica, parameters, act, report, before) {
    const index = this.#enter(word, replica, parameters);
    before?.();
    const result = act?.();
    if (typeof result?.then === "function") {
      return Promise.resolve(result).then((it) => this.#report(index, it, report, word, replica, parameters));
    }
    return this.#report(index, result, report, word, replica, parameters);
  }

  #report(index, result, report, word, replica, parameters) {
    let space;
    try {
      space = report(index, result);
    } catch (error) {
      throw this.#ended(error, word, replica, parameters);
    }
    if (space === undefined) return result;
    return space.then(() => {
      this.#throwFailure();
      return result;
    });
  }

  /** Returns the number of the replica. Throws the failure, if there is one. */
  #enter(word, replica, parameters) {
    if (this.#reports.failure !== null || this.#monitor.unexpected !== null) this.#throwFailure();
    const index = this.#translator.replicas.findIndex(replica);
    if (index !== undefined) return index;
    try {
      return this.#translator.replicas.indexOf(replica);
    } catch (error) {
      throw new NotRepresentable(`${describeCall(word, replica, parameters)}: ${error.message}`);
    }
  }

  #throwFailure() {
    try {
      this.#reports.throwFailure();
    } catch (error) {
      unclosed.close(this.#openKey);
      throw error;
    }
  }

  /**
   * Returns the error to throw. What cannot be represented ends the history: the act has run and is not reported, so
   * later steps would be checked wrongly.
   */
  #ended(error, word, replica, parameters) {
    if (!(error instanceof NotRepresentable)) return error;
    unclosed.close(this.#openKey);
    const call = describeCall(word, replica, parameters);
    this.#reports.failure = new NotRepresentable(`${call}: ${error.message}`, { cause: error.cause });
    return this.#reports.failure;
  }
}

// Returns the value, or its result for the act's result if it is a function.
const evaluate = (value, result) => (typeof value === "function" ? value(result) : value);
const ignore = () => {};
// Returns an option as the caller wrote it, as a list, which is empty if there is none.
const named = (name, value) => (value === undefined || typeof value === "function" ? [] : [{ [name]: value }]);

/** Returns a call as the user wrote it, without what is a function. */
function describeCall(word, replica, parameters) {
  const shown = [replica, ...parameters.filter((it) => it !== undefined && typeof it !== "function")];
  return `${word}(${shown.map((it) => inspect(it, { breakLength: Infinity })).join(", ")})`;
}
