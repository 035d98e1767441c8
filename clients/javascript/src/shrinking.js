// Shrinks a failed run as long as it fails for the same cause. Each attempt is a real run.
import { DeliveryState } from "./delivery_state.js";
import { OPERATIONS } from "./operations.js";
import { BOUNDARIES } from "./plans.js";
import { isSameCause } from "./runs.js";
import { COPYING, RECEIVING, makeStep, renumbered } from "./steps.js";

// Removing each pair of steps is affordable up to this number of steps.
const MAX_STEPS_FOR_PAIRS = 16;
const STRATEGIES = [
  ...[removeReplica, uniteReplicas, removeRange, removeUpdate, mergeAtOnce, calm],
  ...[lowerAll, lowerAmount, lowerValue, removePair],
];

/**
 * Returns a run from which no replica, no update and no other step can be removed, and no message delayed. No amount,
 * and no value or element, can be lowered in it.
 */
export async function shrink(failure, run) {
  const runOnce = withoutRepetition(run);
  let smallest = failure;
  let before;
  do {
    before = smallest;
    for (const strategy of STRATEGIES) smallest = await applyStrategy(smallest, runOnce, strategy);
  } while (isSmaller(smallest.steps, before.steps));
  return smallest;
}

/** Returns a function that runs each plan once, and returns null for one that it was called with before. */
function withoutRepetition(run) {
  const tried = new Set();
  return async (steps) => {
    // Plans that differ only in the numbers of their updates are equal.
    const key = JSON.stringify(renumbered(steps));
    if (tried.has(key)) return null;
    tried.add(key);
    return run(steps);
  };
}

/** Tries the candidates of a strategy, and starts again from each smaller run that fails for the same cause. */
async function applyStrategy(failure, run, strategy) {
  for (const steps of strategy(failure.steps)) {
    const result = await run(steps);
    if (result !== null && isSameCause(result.cause, failure.cause) && isSmaller(result.steps, failure.steps)) {
      return applyStrategy(result, run, strategy);
    }
  }
  return failure;
}

/**
 * Returns whether there are fewer steps, or as many of which fewer are deliveries out of order, or as many with a
 * smaller sum of their numbers.
 */
function isSmaller(steps, others) {
  if (steps.length !== others.length) return steps.length < others.length;
  const [early, othersEarly] = [earlyArrivals(steps).size, earlyArrivals(others).size];
  return early !== othersEarly ? early < othersEarly : sumOfNumbers(steps) < sumOfNumbers(others);
}

/** Returns the sum as a bigint, since the sum of large numbers is not exact otherwise. */
const sumOfNumbers = (steps) => numbersIn(steps).reduce((sum, it) => sum + BigInt(it), 0n);

/** Returns the amounts, values and elements in these steps. */
const numbersIn = (steps) => steps.flatMap((it) => it.arguments.filter(Number.isSafeInteger));

/** Returns the deliveries, by their places, that come before an update that theirs sees, and that update. */
export function earlyArrivals(steps) {
  const numbers = steps.map((it) => Math.max(it.replica, COPYING.includes(it.action) ? it.number : 0));
  const state = new DeliveryState("", 1 + Math.max(0, ...numbers));
  const early = new Map();
  steps.forEach((step, place) => {
    const { action, replica, number } = step;
    if (action === "update") state.update(step);
    if (action === "join") state.join(replica, number);
    if (action === "merge") state.merge(replica, state.counts(number));
    if (action !== "deliver" || !state.canArrive(replica, number)) return;
    const cause = state.missingCause(replica, number);
    if (cause) early.set(place, cause);
    state.arrive(replica, number);
  });
  return early;
}

/** Yields the steps without those of one replica and without all that it sent. */
function* removeReplica(steps) {
  for (const replica of new Set(steps.map((it) => it.replica))) {
    const own = steps.filter((it) => it.action === "update" && it.replica === replica).map((it) => it.number);
    yield steps.filter(
      (it) =>
        it.replica !== replica &&
        !(RECEIVING.includes(it.action) && own.includes(it.number)) &&
        !(COPYING.includes(it.action) && it.number === replica),
    );
  }
}

/** Yields the steps with one replica in the place of another. */
function* uniteReplicas(steps) {
  const replicas = [...new Set(steps.map((it) => it.replica))];
  for (const [removed, kept] of replicas.flatMap((one) => replicas.map((other) => [one, other]))) {
    if (removed === kept) continue;
    const moved = (replica) => (replica === removed ? kept : replica);
    yield steps.map((it) => {
      const number = COPYING.includes(it.action) ? moved(it.number) : it.number;
      return { ...it, replica: moved(it.replica), number };
    });
  }
}

/**
 * Yields the steps without a half, a quarter, down to one step. Later ranges come first, since the failure is at the
 * end and needs few of the steps before it.
 */
function* removeRange(steps) {
  for (let size = steps.length >> 1; size > 0; size >>= 1) {
    for (let end = steps.length; end > 0; end -= size) {
      yield [...steps.slice(0, Math.max(end - size, 0)), ...steps.slice(end)];
    }
  }
}

/** Yields the steps without one update and its deliveries. */
function* removeUpdate(steps) {
  const isOf = (it, number) => (it.action === "update" || RECEIVING.includes(it.action)) && it.number === number;
  for (const { number } of steps.filter((it) => it.action === "update")) {
    yield steps.filter((it) => !isOf(it, number));
  }
}

/** Yields the steps with the current state in a merge, in the place of one that was taken early. */
function* mergeAtOnce(steps) {
  const taken = new Map(steps.filter((it) => it.action === "snapshot").map((it) => [it.number, it.replica]));
  for (const [place, step] of steps.entries()) {
    if (step.action !== "merge_snapshot" || !taken.has(step.number)) continue;
    const merge = makeStep("merge", step.replica, taken.get(step.number));
    const changed = [...steps.slice(0, place), merge, ...steps.slice(place + 1)];
    yield changed.filter((it) => it.action !== "snapshot" || it.number !== step.number);
  }
}

/** Yields the steps with one message delayed behind another of its replica, if it arrives before a cause. */
function* calm(steps) {
  for (const place of earlyArrivals(steps).keys()) {
    const step = steps[place];
    for (let later = place + 1; later < steps.length; later += 1) {
      if (steps[later].action !== "deliver" || steps[later].replica !== step.replica) continue;
      yield [...steps.slice(0, place), ...steps.slice(place + 1, later + 1), step, ...steps.slice(later + 1)];
    }
  }
}

/** Yields the steps with each amount 1, and with the values and elements numbered from 1 in their order. */
function* lowerAll(steps) {
  const values = new Set(numbersIn(steps.filter((it) => !counts(it))));
  const numbers = new Map([...values].map((it, at) => [it, at + 1]));
  yield steps.map((it) => (counts(it) ? { ...it, arguments: it.arguments.map(() => 1) } : withValues(it, numbers)));
}

/** Yields the steps with one amount lowered to 1, and then by a half of it, a quarter, down to 1. */
function* lowerAmount(steps) {
  for (const [place, step] of steps.entries()) {
    const [amount = 0] = counts(step) ? numbersIn([step]) : [];
    const lower = new Set([1]);
    for (let by = amount >> 1; by > 0; by >>= 1) lower.add(amount - by);
    for (const it of lower) {
      if (it < amount) yield [...steps.slice(0, place), { ...step, arguments: [it] }, ...steps.slice(place + 1)];
    }
  }
}

/**
 * Yields the steps with one value or element replaced by the smallest that is free, and then by lower boundaries. It is
 * replaced wherever it occurs, since the steps of a list name its elements.
 */
function* lowerValue(steps) {
  const used = new Set(numbersIn(steps.filter((it) => !counts(it))));
  let smallest = 1;
  while (used.has(smallest)) smallest += 1;
  for (const value of [...used].sort((one, other) => other - one)) {
    for (const lower of new Set([smallest, ...BOUNDARIES])) {
      if (lower < smallest || lower >= value || used.has(lower)) continue;
      yield steps.map((it) => (counts(it) ? it : withValues(it, new Map([[value, lower]]))));
    }
  }
}

/** Returns whether the step is an update of a counter, whose argument is an amount. */
const counts = (step) => OPERATIONS.counter.includes(step.method);

/** Returns the step with these numbers in the place of its values. */
const withValues = (step, numbers) => ({ ...step, arguments: step.arguments.map((it) => numbers.get(it) ?? it) });

/** Yields the steps without two of them, since some can be removed only together. */
function* removePair(steps) {
  if (steps.length > MAX_STEPS_FOR_PAIRS) return;
  for (let second = 1; second < steps.length; second += 1) {
    for (let first = 0; first < second; first += 1) yield steps.filter((_, at) => at !== first && at !== second);
  }
}
