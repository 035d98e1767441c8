// What a type promises of its transport, and what its class can do.
import { inspect } from "node:util";
import { OTHER_NAMES, methodsOf } from "./operations.js";

export const DELIVERIES = ["causal", "any"];
// The relative frequency of each method, unless the caller chooses others.
export const WEIGHTS = {
  increment: 1, decrement: 1, write: 1, add: 2, remove: 1, insertAfter: 3, insert: 3, delete: 1,
  insertAt: 3, removeAt: 1, update: 1,
};
/** Which parameter of a counter's update is an amount. */
export const AMOUNT_RULE = "an amount is the first parameter of each update and is named `by`";
// The first parameter of a method or of an arrow function, and the parameter behind an amount.
const FIRST_PARAMETER = /^(?:(?:async\s+)?([\w$]+)\s*=>|[^(]*\(\s*([\w$]+))/;
const NEXT_PARAMETER = /^(?!(?:async\s+)?[\w$]+\s*=>)[^(]*\(\s*by\b[^,)]*,\s*([\w$]+)/;
const LETTERS = "abcdefghijklmnopqrstuvwxyz";

/**
 * Creates a profile: what the transport of a type may do, and whether its replicas restart. `delivery` is `causal`, or
 * `any` if messages arrive in any order and the type buffers those that depend on a missing one.
 */
export function makeProfile({ delivery = "causal", duplicates = false, lateStates = false, restarts = false } = {}) {
  return { delivery, duplicates, lateStates, restarts };
}

/**
 * Creates the traits of a class, on which its plans depend: the operations of its kind that it has, whether it merges
 * states instead of receiving messages, whether its replicas fork, whether the first parameter of its operations is an
 * amount `by`, what it promises, and the relative frequency of each method.
 */
export function makeTraits(methods, { merges = false, forks = false, amounts = false, profile, weights } = {}) {
  return { methods, merges, forks, amounts, profile: makeProfile(profile), weights: { ...WEIGHTS, ...weights } };
}

/** Returns the function that creates the replica of a name. A class is called with `new`. */
export function replicaMaker(makeReplica) {
  if (typeof makeReplica !== "function") {
    throw new TypeError(`makeReplica is ${inspect(makeReplica)}: expected a class, or a function that makes a replica`);
  }
  const make = isClass(makeReplica) ? (name) => new makeReplica(name) : makeReplica;
  return (name) => {
    const replica = make(name);
    if (typeof replica === "object" && replica !== null && typeof replica.then !== "function") return replica;
    throw new TypeError(`makeReplica(${inspect(name)}) returned ${inspect(replica)}: expected a replica`);
  };
}

/** Returns whether the function is a class. */
export function isClass(make) {
  return /^class\b/.test(Function.prototype.toString.call(make));
}

/**
 * Returns the traits of a class. Throws `TypeError` if it lacks a method or a counter's update requires a parameter
 * that is no amount, and `RangeError` if it cannot keep what is promised.
 */
export function traitsOf(make, kind, name, promised, weights) {
  const replica = make(name);
  const operations = methodsOf(kind).map((it) => ownMethod(replica, it));
  const merges = !hasMethod(replica, "receive") && hasMethod(replica, "merge");
  const required = [operations[0], "read", ...(merges ? ["state", "merge"] : ["receive"])];
  if (promised.restarts) required.push("save", "load");
  const missing = required.filter((it) => !hasMethod(replica, it));
  if (missing.length > 0) {
    throw new TypeError(
      `a replica of the kind ${kind} needs the methods ${required.join(", ")}: this one lacks ${missing.join(", ")}`,
    );
  }
  const methods = operations.filter((it) => hasMethod(replica, it));
  const saves = hasMethod(replica, "save") && hasMethod(replica, "load");
  const amounts = kind === "counter" && methods.every((it) => firstParameter(replica[it]) === "by");
  return {
    methods, merges, forks: hasMethod(replica, "fork"), amounts,
    profile: resolve(merges, saves, promised), weights: chosenWeights(methods, weights),
    untried: kind === "counter" ? untriedParameters(replica, methods, amounts) : [],
  };
}

/** Returns the name of the first parameter, or undefined if there is none or its name is unknown. */
function firstParameter(method) {
  const [, ofArrow, ofMethod] = FIRST_PARAMETER.exec(String(method)) ?? [];
  return ofArrow ?? ofMethod;
}

/**
 * Returns the first parameter of each of a counter's updates other than the amount, behind its method. Throws
 * `TypeError` if one is required.
 */
function untriedParameters(replica, methods, amounts) {
  return methods.flatMap((name) => {
    const method = replica[name];
    const parameter = amounts ? NEXT_PARAMETER.exec(String(method))?.[1] : firstParameter(method);
    // Parameters up to the first one with a default are required.
    if (method.length > (amounts ? 1 : 0)) {
      throw new TypeError(
        `${name} requires the parameter ${parameter ?? "(without a name)"}, for which no argument is passed: ` +
          `${AMOUNT_RULE}; rename the parameter, or give it a default`,
      );
    }
    return parameter === undefined ? [] : [`${name}(${parameter})`];
  });
}

/** Returns the name that this replica has for a method, or the method itself if it has none. */
export function ownMethod(replica, method) {
  const pair = Object.entries(OTHER_NAMES).find((it) => it.includes(method)) ?? [method];
  const other = pair.find((it) => it !== method) ?? method;
  return hasMethod(replica, other) && !hasMethod(replica, method) ? other : method;
}

/** Returns whether the replica has this method. `load` may be a static method of its class. */
export function hasMethod(replica, method) {
  if (typeof replica[method] === "function") return true;
  return method === "load" && typeof replica.constructor?.load === "function";
}

function resolve(merges, saves, { delivery = "causal", duplicates = false, lateStates, restarts }) {
  if (!DELIVERIES.includes(delivery)) {
    throw new RangeError(`delivery=${inspect(delivery)}: expected ${DELIVERIES.map((it) => inspect(it)).join(" or ")}`);
  }
  if (merges && (delivery === "any" || duplicates)) {
    throw new RangeError(
      "delivery and duplicates are about messages, and this type merges states, for which lateStates is meant: " +
        "leave them out",
    );
  }
  if (lateStates && !merges) {
    throw new RangeError("lateStates=true: this type receives messages; expected one with state() and merge(state)");
  }
  return makeProfile({ delivery, duplicates, lateStates: lateStates ?? merges, restarts: restarts ?? saves });
}

function chosenWeights(methods, weights) {
  const unknown = Object.keys(weights ?? {}).filter((it) => !methods.includes(it)).sort();
  if (unknown.length > 0) {
    const expected = methods.join(", ");
    throw new RangeError(`weights has ${inspect(unknown[0])}: expected the methods of this type, ${expected}`);
  }
  const chosen = Object.fromEntries(methods.map((it) => [it, weights?.[it] ?? WEIGHTS[it]]));
  const areNumbers = Object.values(chosen).every((it) => Number.isFinite(it) && it >= 0);
  if (!areNumbers || chosen[methods[0]] === 0) {
    throw new RangeError(
      `weights=${inspect(weights)}: expected numbers of at least 0, and that of ${methods[0]} above 0`,
    );
  }
  return chosen;
}

/** Returns this number of names in rising order. */
export function defaultNames(count) {
  if (count <= LETTERS.length) return [...LETTERS.slice(0, count)];
  return Array.from({ length: count }, (_, number) => `r${String(number).padStart(2, "0")}`);
}
