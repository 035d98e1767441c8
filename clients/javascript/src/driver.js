// The replicas of one run: executes steps on the user's class, and reports them.
import { inspect } from "node:util";
import { copied } from "./copies.js";
import { DeliveryState, INSERTING, REMOVING } from "./delivery_state.js";
import { NotRepresentable } from "./errors.js";
import * as operations from "./operations.js";
import { ownMethod } from "./profile.js";
import { Recorder } from "./recorder.js";
import { Returned, UnusableResult } from "./returned.js";
import { COPYING, callArguments, makeStep } from "./steps.js";
import { expectedResult } from "./translation.js";

/** A substitute for the monitor that collects a recorder's lines, so that one run of the program checks them. */
export class Transcript {
  unexpected = null;
  lines = [];

  post(line) {
    this.lines.push(`${line}\n`);
  }
}

/** The replicas of one run, with the steps that were executed and the lines that report them. */
export class Driver {
  executed = [];
  /** Whether a method of the class returned a promise. */
  isAsynchronous = false;
  /** Whether a copy had an instance of a class, so that `structuredClone` would not make the same. */
  hasInstances = false;
  #make;
  #kind;
  #profile;
  #names;
  #replicas = new Map();
  #state;
  /** What each update returned, by its number. */
  messages = new Map();
  /** The index of each update of a list, by the update's number. */
  indexes = new Map();
  // The step that is being executed, or the read that is reported in its place.
  #current;
  // For each state that was taken early: a copy, which is merged, and the object, with its replica and what was in it.
  #early = new Map();
  // What each replica saved, and what it received since then: methods, each with a message or with a copy of a state.
  #saved = new Map();
  #transcript = new Transcript();
  // For each executed step, the number of lines after it.
  #lineCounts = [];
  #handlers = {
    update: (it) => this.#update(it),
    deliver: (it) => (this.#profile.delivery === "any" ? this.#deliverInAnyOrder(it) : this.#deliver(it)),
    duplicate: (it) => this.#duplicate(it),
    merge: (it) => this.#merge(it),
    snapshot: (it) => this.#snapshot(it),
    merge_snapshot: (it) => this.#mergeSnapshot(it),
    save: (it) => this.#saveState(it.replica).then(() => true),
    restart: (it) => this.#restart(it),
    join: (it) => this.#join(it),
    read: (it) => this.#read(it),
  };

  constructor(setting, steps) {
    this.#make = setting.make;
    this.#kind = setting.kind;
    this.#profile = setting.profile;
    this.#names = setting.replicas;
    const names = initialReplicas(steps).map((replica) => {
      this.#replicas.set(replica, setting.make(this.#names[replica]));
      return this.#names[replica];
    });
    this.#state = new DeliveryState(setting.kind, setting.replicas.length);
    this.recorder = new Recorder(setting.kind, names, { monitor: this.#transcript, mustClose: false });
  }

  /**
   * Executes the steps up to the first error of the user's class or unusable result, and returns that as `{ error }`,
   * or null. Steps that depend on a removed step are skipped.
   */
  async execute(steps) {
    if (this.#profile.restarts) for (const replica of this.#replicas.keys()) await this.#saveState(replica);
    for (const planned of steps) {
      if (this.#replicas.has(planned.replica) === (planned.action === "join")) continue;
      const step = this.#named(planned);
      this.#current = step;
      try {
        if (!(await this.#handlers[step.action](step))) continue;
      } catch (error) {
        if (error instanceof NotRepresentable) throw error;
        this.executed.push(this.#current);
        return { error };
      }
      this.executed.push(this.#current);
      this.#lineCounts.push(this.#transcript.lines.length);
    }
    return null;
  }

  /** Returns the step with the name that its replica has for the method of an update. */
  #named(step) {
    if (step.action !== "update") return step;
    return { ...step, method: ownMethod(this.#replicas.get(step.replica), step.method) };
  }

  /** Returns the history, or the header with this number of commands. */
  text(commands) {
    return this.recorder.header() + this.#transcript.lines.slice(0, commands).join("");
  }

  /** Returns the steps up to the one that reported the command with this number. */
  stepsTo(command) {
    return this.executed.slice(0, this.#lineCounts.findIndex((lines) => lines > command) + 1);
  }

  // One handler for each action. It returns whether the step could be executed.

  async #update(step) {
    if (!this.#state.canUpdate(step)) return false;
    let neighbors = {};
    if (this.#kind === "list") {
      const shown = await this.#shownList(step);
      if (shown === null) return true;
      const { index, ...sides } = placeOf(step, shown);
      this.indexes.set(step.number, index);
      neighbors = sides;
    }
    const message = await this.#call(step.replica, step.method, ...callArguments(step, this.indexes));
    this.messages.set(step.number, new Returned("message", step.number, message));
    const name = this.#names[step.replica];
    if (this.#kind === "counter") {
      await this.recorder[step.method](name, { by: step.arguments[0], message: step.number });
    } else {
      const operation = operationOf(this.#kind, step, message ?? {}, neighbors);
      await this.recorder.update(name, operation, { message: step.number });
    }
    this.#state.update(step);
    if (this.#profile.restarts) await this.#saveState(step.replica);
    return true;
  }

  /**
   * Returns the list that the replica shows before an update. A list with other elements than those that were delivered
   * is reported as a read, in the place of the update. The result is null then.
   */
  async #shownList({ replica }) {
    const value = await this.#call(replica, "read");
    const expected = this.#state.visible[replica];
    const shown = typeof value?.[Symbol.iterator] === "function" ? [...value] : [];
    if (shown.length === expected.length && expected.every((it) => shown.includes(it))) return shown;
    this.#current = makeStep("read", replica, 0);
    await this.#reportRead(replica, value);
    return null;
  }

  async #deliver({ replica, number }) {
    if (!this.#state.canDeliver(replica, number)) return false;
    await this.#hand(replica, "receive", this.messages.get(number));
    await this.recorder.deliver(this.#names[replica], number);
    this.#state.deliver(replica, number);
    return true;
  }

  async #deliverInAnyOrder({ replica, number }) {
    if (!this.#state.canArrive(replica, number)) return false;
    const cause = this.#state.missingCause(replica, number);
    if (cause) this.#note(replica, `receives message ${number} before message ${cause}, on which it depends`);
    await this.#hand(replica, "receive", this.messages.get(number));
    for (const it of this.#state.arrive(replica, number)) await this.recorder.deliver(this.#names[replica], it);
    return true;
  }

  async #duplicate({ replica, number }) {
    if (!this.#state.canRepeat(replica, number)) return false;
    this.#note(replica, `receives message ${number} again`);
    await this.#give(replica, "receive", this.messages.get(number));
    return true;
  }

  async #merge({ replica, number: sender }) {
    if (replica === sender || !this.#replicas.has(sender)) return false;
    await this.#hand(replica, "merge", await this.#call(sender, "state"));
    await this.recorder.merge(this.#names[replica], this.recorder.seen(this.#names[sender]));
    this.#state.merge(replica, this.#state.counts(sender));
    return true;
  }

  async #snapshot({ replica, number }) {
    if (this.#early.has(number)) return false;
    const name = this.#names[replica];
    const what = `the state of ${inspect(name)}`;
    const state = await this.#call(replica, "state");
    const copy = this.#copied(state, what, "lateStates: false");
    const seen = this.recorder.seen(name);
    seen.moment = ` of step ${this.executed.length + 1}`;
    const returned = new Returned("state", number, state);
    this.#early.set(number, { copy, returned, sender: replica, seen, counts: this.#state.counts(replica) });
    return true;
  }

  async #mergeSnapshot({ replica, number }) {
    const early = this.#early.get(number);
    if (early === undefined || early.sender === replica) return false;
    early.returned.requireUnchanged();
    await this.#hand(replica, "merge", this.#copied(early.copy));
    await this.recorder.merge(this.#names[replica], early.seen);
    this.#state.merge(replica, early.counts);
    return true;
  }

  async #restart({ replica }) {
    const { value, moment, received } = this.#saved.get(replica);
    this.#note(replica, `restarts from its state ${moment}`);
    const fresh = this.#make(this.#names[replica]);
    const owner = typeof fresh.load === "function" ? fresh : fresh.constructor;
    const loaded = await this.#awaited(owner.load(this.#copied(value)));
    this.#replicas.set(replica, loaded ?? fresh);
    for (const [method, argument] of received) {
      await this.#give(replica, method, argument instanceof Returned ? argument : this.#copied(argument));
    }
    return true;
  }

  async #join({ replica, number: source }) {
    if (!this.#replicas.has(source)) return false;
    const name = this.#names[replica];
    const forked = await this.#call(source, "fork", name);
    if (forked === undefined || forked === null) {
      throw new TypeError(`fork(${inspect(name)}) returned ${forked}: expected the new replica`);
    }
    this.#replicas.set(replica, forked);
    await this.recorder.join(name, this.#names[source]);
    this.#state.join(replica, source);
    if (this.#profile.restarts) await this.#saveState(replica);
    return true;
  }

  async #read({ replica }) {
    await this.#reportRead(replica, await this.#call(replica, "read"));
    return true;
  }

  async #reportRead(replica, value) {
    try {
      await this.recorder.read(this.#names[replica], value);
    } catch (error) {
      if (!(error instanceof NotRepresentable)) throw error;
      // Where this is thrown is of no interest to the user.
      error.stack = String(error);
      throw new UnusableResult(value, expectedResult(this.#kind), error);
    }
  }

  // Calls of the user's class.

  /** Hands a message or a state to the replica, which receives it again after a restart. */
  #hand(replica, method, argument) {
    if (this.#profile.restarts) {
      const isMessage = argument instanceof Returned;
      const kept = isMessage ? argument : this.#copied(argument, "a state", "restarts: false");
      this.#saved.get(replica).received.push([method, kept]);
    }
    return this.#give(replica, method, argument);
  }

  #give(replica, method, argument) {
    return this.#call(replica, method, argument instanceof Returned ? argument.requireUnchanged() : argument);
  }

  #call(replica, method, ...parameters) {
    return this.#awaited(this.#replicas.get(replica)[method](...parameters));
  }

  #awaited(result) {
    if (typeof result?.then === "function") this.isAsynchronous = true;
    return result;
  }

  async #saveState(replica) {
    const step = this.executed.length + 1;
    const what = `what ${inspect(this.#names[replica])} saved`;
    const value = this.#copied(await this.#call(replica, "save"), what, "restarts: false");
    this.#saved.set(replica, { value, moment: step > 1 ? `of step ${step}` : "at the beginning", received: [] });
  }

  #copied(value, what = "a state", option = "lateStates: false") {
    return copied(value, what, option, () => {
      this.hasInstances = true;
    });
  }

  #note(replica, text) {
    this.recorder.note(`${inspect(this.#names[replica])} ${text}`);
  }
}

/** Returns the index of a list's update, and the elements that the list shows on both sides of an insertion. */
function placeOf({ method, arguments: [named] }, shown) {
  if (REMOVING.includes(method)) return { index: shown.indexOf(named) };
  const index = named === null ? 0 : shown.indexOf(named) + 1;
  return { index, left: named, right: shown[index] ?? null };
}

/** Returns the operation of an update, with the stamp or the identifiers of its message. */
function operationOf(kind, step, message, { left, right }) {
  const [first, second] = step.arguments;
  if (kind === "list" && INSERTING.includes(step.method)) return operations.insert(left, second, right);
  if (kind === "any") return operations.update();
  if (kind === "mvregister") return operations.write(first);
  if (kind === "register") return operations.write(first, stampOf(step, message));
  if (step.method === "insertAfter") return operations.insertAfter(first, second, stampOf(step, message));
  if (kind === "orset" && step.method === "add") return operations.add(first, { identifier: message.identifier });
  if (kind === "orset") return operations.remove(first, { identifiers: message.identifiers });
  if (operations.LISTS.includes(kind)) return operations.remove(first);
  const update = step.method === "add" ? operations.add : operations.remove;
  return update(first, { stamp: stampOf(step, message) });
}

/** Returns the stamp of an update's message, which has to have one. */
function stampOf(step, message) {
  if (message.stamp !== undefined) return message.stamp;
  const call = `${step.method}(${step.arguments.map((it) => inspect(it)).join(", ")})`;
  throw new NotRepresentable(
    `${call} returned a message without a stamp, ${inspect(message)}: expected a property \`stamp\` that has the ` +
      "clock, or the clock and the replica's name",
  );
}

/**
 * Returns the initial replicas in their order: those that do not join. A replica joins only if its number is above all
 * that are present, since it is the last one in the order of ties.
 */
export function initialReplicas(steps) {
  const used = new Set();
  let joining = [];
  for (const step of steps) {
    const other = COPYING.includes(step.action) ? step.number : step.replica;
    const isNew = !used.has(step.replica) && other !== step.replica;
    if (step.action === "join" && isNew) joining.push(step.replica);
    used.add(step.replica).add(other);
  }
  for (;;) {
    const initial = [...used].filter((it) => !joining.includes(it)).sort((one, other) => one - other);
    let last = initial.at(-1) ?? -1;
    const rising = joining.filter((it) => it > last && (last = it) === it);
    if (rising.length === joining.length) return initial;
    joining = rising;
  }
}
