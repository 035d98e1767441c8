// The fields of each operation in a log, and the conversion of its value.
import { DELIVER, FIELDS, LogFault, PART, READ, fieldFault, missingField, shown, thing } from "./log_lines.js";
import { operationsOf } from "./operations.js";
import { MAX_AMOUNT } from "./recorder.js";
import { MAX_COUNT, MIN_COUNT } from "./translation.js";

// Fields that every line may have.
const COMMON = ["replica", "object", "operation", "kind"];
const COUNTING = { required: [], optional: ["value", "message"] };
const STAMPED = { required: ["value", "stamp"], optional: ["message"] };
const SHAPES = {
  counter: { increment: COUNTING, decrement: COUNTING },
  register: { write: STAMPED },
  lwwset: { add: STAMPED, remove: STAMPED },
  orset: {
    add: { required: ["value"], optional: ["identifier", "message"] },
    remove: { required: ["value"], optional: ["identifiers", "message"] },
  },
  rga: {
    insert_after: { required: ["anchor", "value", "stamp"], optional: ["message"] },
    remove: { required: ["value"], optional: ["message"] },
  },
  list: {
    insert: { required: ["left", "value", "right"], optional: ["message"] },
    remove: { required: ["value"], optional: ["message"] },
    [PART]: { required: ["value"], optional: [] },
  },
  any: { update: { required: [], optional: ["message"] } },
  mvregister: { write: { required: ["value"], optional: ["message"] } },
};
const OF_ANY_KIND = {
  [DELIVER]: { required: ["message"], optional: [] },
  [READ]: { required: ["value"], optional: [] },
};

/**
 * Returns the operation, the message and the value of an event of this kind. Throws `LogFault` if the operation or a
 * field is not one of it.
 */
export function checked(event, kind) {
  const { place, operation } = event;
  const shape = OF_ANY_KIND[operation] ?? (Object.hasOwn(SHAPES[kind], operation) ? SHAPES[kind][operation] : null);
  if (shape === null) {
    const parts = kind === "list" ? [PART] : [];
    const expected = [...operationsOf(kind).map(snakeCased), ...parts, READ, DELIVER].join(", ");
    throw fieldFault(place, "operation", operation, `one of ${expected} for the kind ${kind}`);
  }
  const missing = shape.required.find((it) => !(it in event));
  if (missing !== undefined) throw missingField(place, missing);
  const known = [...COMMON, ...shape.required, ...shape.optional];
  const extra = Object.keys(FIELDS).find((it) => it in event && !known.includes(it));
  if (extra !== undefined) {
    throw new LogFault(place,
      `the field "${extra}" is ${shown(event[extra])}, and ${operation} of the kind ${kind} has no such field: ` +
        "expected a line without it; rename it, or choose another kind");
  }
  return { operation: operationOf(event, kind), message: event.message };
}

const snakeCased = (word) => word.replace(/[A-Z]/g, (it) => `_${it.toLowerCase()}`);
const camelCased = (word) => word.replace(/_([a-z])/g, (_, it) => it.toUpperCase());

/** Returns what `Reports` takes: an update, a list of equal updates for an amount, or the result of a read. */
function operationOf(event, kind) {
  if (event.operation === DELIVER) return undefined;
  if (event.operation === READ || event.operation === PART) return resultOf(event, kind);
  const word = camelCased(event.operation);
  if (kind === "counter") return Array(amountOf(event)).fill({ word });
  if (kind === "any") return { word };
  if (kind === "register" && event.value === null) {
    const expected = "another value, since null represents an unwritten register";
    throw fieldFault(event.place, "value", event.value, expected);
  }
  const operation = { word, value: thing(event.value) };
  if ("stamp" in event) operation.stamp = BigInt(event.stamp);
  for (const name of ["anchor", "left", "right"]) {
    if (name in event) operation[name] = event[name] === null ? null : thing(event[name]);
  }
  if ("identifier" in event) operation.identifiers = [thing(event.identifier)];
  if ("identifiers" in event) operation.identifiers = event.identifiers.map(thing);
  return operation;
}

function resultOf(event, kind) {
  if (kind === "counter") return wholeNumber(event, MIN_COUNT, MAX_COUNT);
  if (kind === "register" || kind === "any") return thing(event.value);
  if (Array.isArray(event.value)) return event.value.map(thing);
  const what = kind === "mvregister" ? "values" : "elements";
  throw fieldFault(event.place, "value", event.value, `the list of the ${what} that the read returned`);
}

const amountOf = (event) => ("value" in event ? wholeNumber(event, 1, MAX_AMOUNT) : 1);

function wholeNumber({ place, value }, least, most) {
  if (Number.isInteger(value) && value >= least && value <= most) return value;
  throw fieldFault(place, "value", value, `a whole number from ${least} to ${most}`);
}
