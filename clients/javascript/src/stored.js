// Failures as JSON files, which `replay` runs again. Both clients write and read the same format.
import { readFileSync, writeFileSync } from "node:fs";
import { inspect } from "node:util";
import { DELIVERIES, makeProfile } from "./profile.js";
import { fromValues, toValues } from "./steps.js";

const VERSION = 1;
const KEYS = ["version", "seed", "kind", "replicas", "profile", "steps", "cause", "history"];

/** Writes the failure to this file. The operation is what the replica did last, for people who read the file. */
export function store(path, { seed, kind, replicas, profile, steps, cause, history, operation }) {
  const { delivery, duplicates, lateStates, restarts } = profile;
  const values = {
    version: VERSION, seed, kind, replicas: replicas.map(plain),
    profile: { delivery, duplicates, late_states: lateStates, restarts },
    steps: toValues(steps), cause, history, operation,
  };
  writeFileSync(path, `${JSON.stringify(values)}\n`);
}

/** Reads a failure from this file. Throws `RangeError` if it has none. */
export function load(path) {
  const values = parse(path);
  const isObject = typeof values === "object" && values !== null && !Array.isArray(values);
  const missing = KEYS.filter((it) => !isObject || !Object.hasOwn(values, it));
  if (missing.length > 0) throw new RangeError(`${path} is not a stored failure: it lacks ${missing.join(", ")}`);
  if (values.version !== VERSION) {
    const version = inspect(values.version);
    throw new RangeError(`${path} has version ${version} of the format, and this client reads ${VERSION}`);
  }
  const { delivery, duplicates, late_states: lateStates, restarts } = values.profile ?? {};
  if (!DELIVERIES.includes(delivery)) {
    const expected = DELIVERIES.join(" or ");
    throw new RangeError(`${path} has the delivery ${inspect(delivery)}: expected ${expected}`);
  }
  const steps = parseSteps(path, values);
  return { ...values, steps, profile: makeProfile({ delivery, duplicates, lateStates, restarts }) };
}

function parse(path) {
  const text = readFileSync(path, "utf8");
  try {
    return JSON.parse(text);
  } catch (error) {
    throw new RangeError(
      `${path} is not a stored failure: ${error.message}; expected the JSON that checkRandom wrote`,
    );
  }
}

function parseSteps(path, { steps: values, replicas }) {
  let steps;
  try {
    steps = fromValues(values);
  } catch (error) {
    throw new RangeError(`${path} is not a stored failure: ${error.message}`);
  }
  steps.forEach(({ replica }, at) => {
    if (Number.isInteger(replica) && replica >= 0 && replica < replicas.length) return;
    throw new RangeError(`${path}: step ${at + 1} is of replica ${inspect(replica)}, and there are ${replicas.length}`);
  });
  return steps;
}

function plain(name) {
  if (Array.isArray(name)) return name.map(plain);
  return ["string", "number", "boolean"].includes(typeof name) || name === null ? name : inspect(name);
}
