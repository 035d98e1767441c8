// The steps of a random run, as plain values that can be stored.
import { inspect } from "node:util";
import { OTHER_NAMES } from "./operations.js";

// The actions in which a replica receives the current state of another one, whose number the step has.
export const COPYING = ["merge", "join"];
// The actions in which a replica receives a message, whose number the step has.
export const RECEIVING = ["deliver", "duplicate"];
// The method of a replica that each action calls; that of an update is in its step.
export const METHOD_OF = {
  deliver: "receive", duplicate: "receive", merge: "merge", snapshot: "state", merge_snapshot: "merge",
  save: "save", restart: "load", join: "fork", read: "read",
};
// The names of methods in files, which all clients read, where those of a class differ.
const STORED_NAMES = {
  insertAfter: "insert_after",
  ...Object.fromEntries(Object.entries(OTHER_NAMES).map(([stored, own]) => [own, stored])),
};
// The names of methods here, where those in files differ.
const OWN_NAMES = { insert_after: "insertAfter" };

/**
 * Creates a step. The action is `update`, `deliver`, `duplicate`, `merge`, `snapshot`, `merge_snapshot`, `save`,
 * `restart`, `join` or `read`. The number is that of the update that is issued or delivered, of the replica whose state
 * is copied, or of the state that is taken early and merged late.
 */
export function makeStep(action, replica, number = 0, method = "", parameters = []) {
  return { action, replica, number, method, arguments: parameters };
}

/**
 * Returns the arguments of the call that an update makes. `indexes` has the index of each update of a list.
 *
 * The first argument of a step of a list names an element: the one that is removed, or the one behind which the new one
 * is inserted. The call has an index instead.
 */
export function callArguments(step, indexes) {
  if (step.action !== "update" || !indexes.has(step.number)) return step.arguments;
  return [indexes.get(step.number), ...step.arguments.slice(1)];
}

/** Returns the steps as lists, for JSON. */
export function toValues(steps) {
  return steps.map((it) => [it.action, it.replica, it.number, STORED_NAMES[it.method] ?? it.method, it.arguments]);
}

/** Returns the steps of such lists. Throws `RangeError` if one is not a step. */
export function fromValues(values) {
  return values.map((value, at) => {
    if (!Array.isArray(value) || value.length !== 5 || !Array.isArray(value[4])) {
      throw new RangeError(`step ${at + 1} is ${inspect(value)}: expected a list of five values`);
    }
    const [action, replica, number, method, parameters] = value;
    if (action !== "update" && !Object.hasOwn(METHOD_OF, action)) {
      const expected = Object.keys(METHOD_OF).join(", ");
      throw new RangeError(`step ${at + 1} has the action ${inspect(action)}: expected update, ${expected}`);
    }
    return makeStep(action, replica, number, OWN_NAMES[method] ?? method, parameters);
  });
}

/** Returns the steps with their updates, and their early states, numbered from 1 in their order. */
export function renumbered(steps) {
  const numbers = { update: new Map(), state: new Map() };
  return steps.map((step) => {
    const isState = step.action === "snapshot" || step.action === "merge_snapshot";
    if (!isState && step.action !== "update" && !RECEIVING.includes(step.action)) return step;
    const known = numbers[isState ? "state" : "update"];
    if (!known.has(step.number)) known.set(step.number, known.size + 1);
    return { ...step, number: known.get(step.number) };
  });
}
