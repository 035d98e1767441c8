// The events of a log: JSON lines, each with its file and its number (docs/reference/log_format.md).
import { readFileSync } from "node:fs";
import { inspect } from "node:util";
import { OPERATIONS } from "./operations.js";

const KINDS = Object.keys(OPERATIONS);
export const STANDARD_INPUT = "-";
export const DELIVER = "deliver";
export const READ = "read";
export const PART = "part";
// The types of a completion or an invocation in a Jepsen history.
const JEPSEN_TYPES = ["invoke", "ok", "fail", "info"];
// The longest value that a message quotes.
const SHOWN_LENGTH = 60;
const EXAMPLE = '{"replica": "ann", "operation": "increment", "message": "m1"}';

/** A log that cannot be read: the message names the file, the line and the field. */
export class LogFault extends Error {
  name = "LogFault";

  constructor(place, problem) {
    super(`${place}: ${problem}`);
  }
}

/** A log that lacks what the condition is about. The message says what. */
export class CannotJudge extends Error {
  name = "CannotJudge";
}

/** A JSON value other than a string or a whole number. Equal values are one instance. */
class Json {
  constructor(text) {
    this.text = text;
  }

  [inspect.custom]() {
    return this.text;
  }
}

const instances = new Map();

/** Returns a JSON value as what messages show, and as a key of a map. */
export function thing(value) {
  if (typeof value === "string" || Number.isInteger(value)) return value;
  const text = canonical(value);
  if (!instances.has(text)) instances.set(text, new Json(text));
  return instances.get(text);
}

/** Returns the JSON of a value, with the keys of objects in ascending order. */
function canonical(value) {
  if (Array.isArray(value)) return `[${value.map(canonical).join(",")}]`;
  if (typeof value !== "object" || value === null) return JSON.stringify(value);
  const keys = Object.keys(value).sort();
  return `{${keys.map((it) => `${JSON.stringify(it)}:${canonical(value[it])}`).join(",")}}`;
}

/** Returns the JSON of a value, so that a message quotes what the log has, or the beginning of a long one. */
export function shown(value) {
  const text = canonical(value);
  return text.length <= SHOWN_LENGTH ? text : `${text.slice(0, SHOWN_LENGTH)} ..`;
}

/** Creates the fault of a field with a wrong value. */
export function fieldFault(place, name, value, expected) {
  return new LogFault(place, `the field "${name}" is ${shown(value)}: expected ${expected}`);
}

/** Creates the fault of a line that lacks a field. `where` says where the field may be. */
export function missingField(place, name, where = "") {
  return new LogFault(place, `the field "${name}" is missing: expected ${FIELDS[name].expected}${where}`);
}

const isKey = (value) => (typeof value === "string" && value !== "") || Number.isSafeInteger(value);
const isClock = (value) => Number.isSafeInteger(value) || (typeof value === "string" && /^[0-9]+$/.test(value));
const isAnything = () => true;

/** What each field of a line has to be. */
export const FIELDS = {
  replica: { expected: "the name of the replica, a string or a whole number", accepts: isKey },
  object: { expected: "the name of the object, a string or a whole number", accepts: isKey },
  operation: {
    expected: "what the replica did, such as read, deliver, write or add",
    accepts: (value) => typeof value === "string",
  },
  kind: { expected: `one of ${KINDS.join(", ")}`, accepts: (value) => KINDS.includes(value) },
  message: { expected: "the key of the update's message, a string or a whole number", accepts: isKey },
  stamp: { expected: "the clock of the update, a whole number or a string of digits", accepts: isClock },
  identifier: { expected: "the identifier of the addition, a JSON value", accepts: isAnything },
  identifiers: { expected: "the list of the identifiers that the removal names", accepts: Array.isArray },
  anchor: { expected: "the element in front, or null at the start of the list", accepts: isAnything },
  left: { expected: "the element that was shown in front, or null if there was none", accepts: isAnything },
  right: { expected: "the element that was shown behind, or null if there was none", accepts: isAnything },
  value: { expected: "a JSON value", accepts: isAnything },
};

/**
 * Reads the events of these files, in the order of the files and of their lines: each has its `place`, its `number`
 * among all, and the fields of the format that its line has. Throws `LogFault` for the first line that is no event, and
 * `CannotJudge` if the log is of another sort.
 */
export function readEvents(paths) {
  const events = [];
  const twice = paths.find((it, index) => paths.indexOf(it) !== index);
  if (twice !== undefined) throw new LogFault(twice, "the file is given twice: expected each file once");
  for (const path of paths) {
    const file = path === STANDARD_INPUT ? "standard input" : path;
    linesOf(path).forEach((line, index) => {
      const place = `${file}:${index + 1}`;
      const text = textOf(place, line).trim();
      if (text !== "") events.push({ place, number: events.length, ...fieldsOf(place, text) });
    });
  }
  return events;
}

/** Returns the bytes of each line. A line is decoded by itself, so that a fault has its number. */
function linesOf(path) {
  let bytes;
  try {
    bytes = readFileSync(path === STANDARD_INPUT ? 0 : path);
  } catch (error) {
    const reason = error.code === "ENOENT" ? "No such file or directory" : error.message;
    throw new LogFault(path, `the file cannot be read (${reason}): expected a log of JSON lines`);
  }
  const lines = [];
  for (let start = 0; start < bytes.length; ) {
    const end = bytes.indexOf(10, start);
    lines.push(bytes.subarray(start, end < 0 ? bytes.length : end));
    start = end < 0 ? bytes.length : end + 1;
  }
  return lines;
}

const decoder = new TextDecoder("utf-8", { fatal: true });

function textOf(place, line) {
  try {
    return decoder.decode(line);
  } catch {
    throw new LogFault(place, "the line is not UTF-8: expected JSON in UTF-8");
  }
}

function fieldsOf(place, text) {
  const values = parse(place, text);
  for (const name of ["replica", "operation"]) if (!Object.hasOwn(values, name)) throw missingField(place, name);
  const fields = {};
  for (const [name, { expected, accepts }] of Object.entries(FIELDS)) {
    if (!Object.hasOwn(values, name)) continue;
    requireExact(place, name, values[name]);
    if (!accepts(values[name])) throw fieldFault(place, name, values[name], expected);
    fields[name] = values[name];
  }
  return fields;
}

function parse(place, text) {
  let values = null;
  try {
    values = JSON.parse(text);
  } catch {
    if (text.startsWith("{:") && text.includes(":invoke")) throw jepsen(place);
  }
  if (typeof values !== "object" || values === null || Array.isArray(values)) {
    throw new LogFault(place, `the line is no JSON object: expected one event, such as ${EXAMPLE}`);
  }
  const isJepsen = JEPSEN_TYPES.includes(values.type) && "process" in values && "f" in values;
  if (isJepsen && !("replica" in values)) throw jepsen(place);
  return values;
}

function jepsen(place) {
  return new CannotJudge(
    `${place}: this is a Jepsen history, which cannot be judged: it has invocations and completions of clients, and ` +
      "no deliveries between replicas, which RA-linearizability is about; have each replica log what it applies",
  );
}

/** Throws `LogFault` if a number was rounded when it was parsed, so that two of them may have become one. */
function requireExact(place, name, value) {
  if (typeof value === "object" && value !== null) {
    for (const it of Object.values(value)) requireExact(place, name, it);
  } else if (Number.isInteger(value) && !Number.isSafeInteger(value)) {
    throw fieldFault(place, name, value, `a number up to ${Number.MAX_SAFE_INTEGER}; write a larger one as a string`);
  }
}
