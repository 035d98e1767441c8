// Random runs of the user's own replicas, and the smallest history of the first failure.
import { inspect } from "node:util";
import { NotRepresentable } from "./errors.js";
import { OTHER_NAMES, methodsOf } from "./operations.js";
import { Planner, formatSeed, parseSeed } from "./plans.js";
import { AMOUNT_RULE, defaultNames, hasMethod, ownMethod, replicaMaker, traitsOf } from "./profile.js";
import * as programs from "./program.js";
import { createError, createFlaky, requireWritable } from "./random_failures.js";
import { Run, findFailure, isSameCause } from "./runs.js";
import { shrink } from "./shrinking.js";
import { METHOD_OF, renumbered } from "./steps.js";
import { load } from "./stored.js";

// The shortest time between two lines of progress, in milliseconds.
const PROGRESS_INTERVAL = 2_000;
// The number of histories that are checked while the next run is executed.
const OVERLAP = 4;
// The number of times that a failed run is run again before it is shrunk.
const REPEATS = 2;
const SETTINGS = ["replicas", "operations", "seeds"];
const OPTIONS = ["delivery", "duplicates", "lateStates", "restarts", "weights", "program", "failure"];

/** The runs that passed. */
export class Runs {
  constructor(runs, unused) {
    /** The number of runs. */
    this.runs = runs;
    /** The operations of the kind that the class does not have, so that they were not tried. */
    this.unused = unused;
  }

  valueOf() {
    return this.runs;
  }
}

/** The lines on standard error that show the progress of a long test. */
class Progress {
  #test;
  #last = performance.now();

  constructor(test) {
    this.#test = test;
  }

  /** Prints the status, unless the last line is too recent. */
  report(status) {
    if (performance.now() - this.#last < PROGRESS_INTERVAL) return;
    this.#last = performance.now();
    process.stderr.write(`${this.#test}: ${status}\n`);
  }
}

/**
 * Tests replicas in random runs, one for each seed, and returns the runs that passed. See index.d.ts for what a replica
 * needs, for the options, and for the errors.
 */
export async function checkRandom(makeReplica, kind, replicas = 3, operations = 30, seeds = 100, options = {}) {
  const isObject = typeof replicas === "object" && replicas !== null;
  const isOptions = isObject && Object.getPrototypeOf(replicas) === Object.prototype;
  const chosen = isOptions ? replicas : { ...options, replicas, operations, seeds };
  const { program, failure, weights, ...promised } = chosen;
  const checked = checkArguments(chosen);
  if (failure !== undefined) requireWritable(failure);
  const make = replicaMaker(makeReplica);
  const traits = traitsOf(make, kind, checked.names[0], promised, weights);
  const setting = {
    makeReplica, make, kind, replicas: checked.names, profile: traits.profile,
    program: programs.findForManyRuns(program),
  };
  const progress = new Progress(`checkRandom ${kind}`);
  let runs = 0;
  const plans = planAll(setting, checked, traits);
  for await (const { seed, steps, found } of overlapped(setting, plans)) {
    runs += 1;
    if (found !== null) {
      const details = { seed: formatSeed(seed), summary: `run ${runs}, seed ${formatSeed(seed)}`, failure };
      throw await explainFailure(setting, steps, found, progress, details);
    }
    progress.report(`${runs} runs passed so far`);
  }
  if (runs === 0) throw new RangeError("there are no seeds, so nothing was run: pass at least one");
  return resultOf(runs, kind, traits);
}

/** Returns the names, the number of operations, and the seeds. Throws `RangeError` if one is none of these. */
function checkArguments({ replicas = 3, operations = 30, seeds = 100, ...options }) {
  const unknown = Object.keys(options).find((it) => !OPTIONS.includes(it));
  if (unknown !== undefined) {
    const expected = [...SETTINGS, ...OPTIONS].join(", ");
    throw new RangeError(`unknown option ${inspect(unknown)}: expected ${expected}`);
  }
  const isList = (it) => typeof it?.[Symbol.iterator] === "function" && typeof it !== "string";
  for (const [name, value, least] of [["replicas", replicas, 1], ["operations", operations, 0], ["seeds", seeds, 0]]) {
    if (typeof value === "boolean" || (typeof value === "number" && value < least)) {
      throw new RangeError(`${name}=${inspect(value)}: expected at least ${least}`);
    }
  }
  if (!Number.isInteger(operations)) {
    throw new RangeError(`operations=${inspect(operations)}: expected a whole number`);
  }
  if (![replicas, seeds].every((it) => Number.isInteger(it) || isList(it))) {
    throw new RangeError(
      `replicas=${inspect(replicas)}, seeds=${inspect(seeds)}: expected for each a whole number or a list`,
    );
  }
  const names = Number.isInteger(replicas) ? defaultNames(replicas) : [...replicas];
  if (names.length === 0) throw new RangeError(`replicas=${inspect(replicas)}: expected at least one name`);
  const chosen = Number.isInteger(seeds) ? Array.from({ length: seeds }, (_, seed) => seed) : [...seeds];
  return { names, operations, seeds: chosen.map(parseSeed) };
}

function* planAll(setting, { names, operations, seeds }, traits) {
  for (const seed of seeds) {
    yield { seed, steps: new Planner(setting.kind, names.length, operations, seed, traits).plan() };
  }
}

/** Yields the seed, the steps and the failure of each plan in turn, while the next ones are executed. */
async function* overlapped(setting, plans) {
  const pending = [];
  try {
    for (const { seed, steps } of plans) {
      try {
        pending.push({ seed, steps, run: await Run.start(setting, steps) });
      } catch (error) {
        // An earlier run that failed is reported first.
        if (error instanceof NotRepresentable) yield* finished(pending, 0);
        throw error;
      }
      yield* finished(pending, OVERLAP);
    }
    yield* finished(pending, 0);
  } finally {
    await Promise.all(pending.map(({ run }) => run.stop()));
  }
}

/** Yields the oldest runs until at most this number is pending. */
async function* finished(pending, most) {
  while (pending.length > most) {
    const { seed, steps, run } = pending.shift();
    yield { seed, steps, found: await run.findFailure() };
  }
}

function resultOf(runs, kind, traits) {
  const unused = methodsOf(kind).filter((it) => ![it, OTHER_NAMES[it]].some((name) => traits.methods.includes(name)));
  if (unused.length > 0) {
    process.stderr.write(`checkRandom ${kind}: the type has no ${unused.join(", ")}, so it was not tried\n`);
  }
  if (traits.untried.length > 0) {
    const untried = traits.untried.join(", ");
    process.stderr.write(`checkRandom ${kind}: no argument was tried for ${untried}: ${AMOUNT_RULE}\n`);
  }
  return new Runs(runs, unused);
}

async function explainFailure(setting, steps, found, progress, details) {
  for (let repeats = 0; repeats < REPEATS; repeats += 1) {
    const again = await findFailure(setting, steps);
    if (again === null || !isSameCause(again.cause, found.cause)) return createFlaky(setting, found, again, details);
  }
  const small = await shrinkFailure(setting, found, progress);
  const summary = `${details.summary}, shrunk from ${found.steps.length} steps to ${small.steps.length}`;
  return createError(setting, small, { ...details, summary });
}

async function shrinkFailure(setting, failure, progress) {
  let smallest = failure.steps.length;
  const small = await shrink(failure, async (steps) => {
    const result = await findFailure(setting, steps);
    if (result !== null && isSameCause(result.cause, failure.cause)) smallest = Math.min(smallest, result.steps.length);
    progress.report(`a run failed with ${failure.steps.length} steps; shrunk to ${smallest} so far`);
    return result;
  });
  // The messages of the small run are numbered from 1.
  const numbered = await findFailure(setting, renumbered(small.steps));
  return numbered !== null && isSameCause(numbered.cause, small.cause) ? numbered : small;
}

/**
 * Runs the steps of a stored failure again, and returns their number if they pass. Steps that the class cannot execute
 * any more are left out. Rejects with the error of `checkRandom` if the run still fails, and with `RangeError` if the
 * file is no stored failure.
 */
export async function replay(makeReplica, path, { program } = {}) {
  const stored = load(path);
  const make = replicaMaker(makeReplica);
  const { kind, replicas, profile } = stored;
  const setting = { makeReplica, make, kind, replicas, profile, program: programs.findForManyRuns(program) };
  const replica = make(replicas[0]);
  const steps = stored.steps.filter((it) => hasMethod(replica, METHOD_OF[it.action] ?? ownMethod(replica, it.method)));
  if (steps.length === 0) {
    throw new RangeError(`${path}: the class has none of the methods that the stored steps call, so nothing was run`);
  }
  const run = await Run.start(setting, steps);
  const found = await run.findFailure();
  if (found === null) return run.executed.length;
  const cause = `in another way (${found.cause.join(" ")}, and then ${stored.cause.join(" ")})`;
  const fails = isSameCause(found.cause, stored.cause) ? "still fails" : `fails ${cause}`;
  const summary = `the stored run of seed ${stored.seed} ${fails}`;
  throw createError(setting, found, { seed: stored.seed, summary, stored: path });
}
