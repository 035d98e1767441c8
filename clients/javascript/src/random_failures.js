// The error for a failed random run: its message and its files.
import { accessSync, constants, existsSync, statSync } from "node:fs";
import { dirname } from "node:path";
import { inspect } from "node:util";
import { FlakyRun, NotLinearizable, Refused, ReplicaRaised } from "./errors.js";
import { saveHistory } from "./failure_report.js";
import { describeFaults } from "./faults.js";
import { regressionTest } from "./regression.js";
import { Changed, Unusable } from "./returned.js";
import { RECEIVING, callArguments } from "./steps.js";
import { store } from "./stored.js";

// The largest number of lines of a history that a message shows.
const SHOWN_LINES = 40;

/**
 * Creates the error for a shrunk run, and stores its history and its steps.
 *
 * `summary` says which run it was. The steps are stored in the file `failure`, or beside the history; a run that was
 * `stored` before is not stored again.
 */
export function createError(setting, small, { seed, summary, failure, stored }) {
  const [history, path] = stored === undefined ? storeFailure(setting, small, seed, failure) : [beside(stored), stored];
  const report = reportOn(setting, small);
  const operation = operationOf(setting, small);
  const reply = small.raised === undefined ? small.replies.at(-1) : "";
  const explanation = report.explain(small.text, reply, setting.program);
  const faults = describeFaults(small.steps, setting.replicas).join("; ");
  const [first, run] = stored === undefined ? ["", `${summary}; `] : [`${summary}: `, ""];
  const parts = [
    ...(faults === "" ? [] : [`at work: ${faults}`]),
    `${run}the history is ${history}, the steps are ${path}:\n`,
    indented(header(small.text)),
    // The history has no line for a call that threw.
    report.formatCommands(small.replies, { most: SHOWN_LINES, last: small.raised && operation.split("\n")[0] }),
  ];
  if (stored === undefined) {
    const expected = small.steps.at(-1).action === "read" ? report.expectedRead(explanation) : null;
    parts.push("\nthe same as a test:\n", indented(regressionTest(setting, small, { seed, expected, path })));
  }
  const details = parts.join("\n").trimEnd();
  const error = small.raised === undefined
    ? createRejected(small, operation, history, `${first}${report.summarize(reply, explanation)}\n${details}`)
    : createRaised(small, operation, history, `${first}${operation}\n${describeOrigin(setting, small)}${details}`);
  error.steps = path;
  return error;
}

function createRejected(small, operation, history, message) {
  const Kind = small.cause[0] === "no" ? NotLinearizable : Refused;
  return new Kind(message, operation, small.replies.at(-1), history);
}

function createRaised({ raised: { error } }, operation, history, message) {
  const cause = error instanceof Unusable ? error.cause : error;
  return new ReplicaRaised(message, operation, "", history, { cause });
}

/** Creates the error for a run that did not fail in the same way again. */
export function createFlaky(setting, found, again, { seed, summary, failure }) {
  const [history, stored] = storeFailure(setting, found, seed, failure);
  const first = answerOf(setting, found);
  const second = again === null ? "it passed" : answerOf(setting, again);
  const error = new FlakyRun(
    `${summary} failed, and the same steps did not fail in the same way again: the class is not deterministic ` +
      `(random numbers, time, the order of a set, or what replicas share)\nat one time: ${first}\n` +
      `at another time: ${second}\nthe history is ${history}, and the steps are ${stored}`,
    operationOf(setting, found), found.raised === undefined ? found.replies.at(-1) : "", history,
  );
  error.steps = stored;
  return error;
}

/** Returns what a replica did, and what came of it. */
function answerOf(setting, failure) {
  if (failure.raised !== undefined) return operationOf(setting, failure);
  return reportOn(setting, failure).summarize(failure.replies.at(-1), null);
}

/** Returns a report on the failed history, in which an update of any type, whose line has no arguments, has its call. */
function reportOn({ kind }, { recorder, steps, text, indexes }) {
  const updates = kind === "any" ? steps.filter(({ action }) => action === "update") : [];
  return recorder.failureReport(text, new Map(updates.map((it) => [it.number, callOf(it, indexes)])));
}

function callOf(step, indexes) {
  return `${step.method}(${callArguments(step, indexes).map((it) => inspect(it)).join(", ")})`;
}

/** Returns the last command, or the last call with what it threw, or what it returned that cannot be used. */
function operationOf(setting, failure) {
  const { raised, steps, indexes } = failure;
  if (raised === undefined) {
    const report = reportOn(setting, failure);
    return report.describe(report.commands.length - 1);
  }
  const outcome = raised.error instanceof Unusable ? raised.error.message : `threw ${raised.error}`;
  return `${describeCall(setting, steps.at(-1), indexes)} ${outcome}`;
}

/** Returns a line that says which call returned what the last one received, if that is a message or has changed. */
function describeOrigin(setting, { steps, messages, indexes, raised: { error } }) {
  const last = steps.at(-1);
  const hasChanged = error instanceof Changed;
  if (!hasChanged && !RECEIVING.includes(last.action)) return "";
  const { what, number } = hasChanged ? error : { what: "message", number: last.number };
  const action = what === "message" ? "update" : "snapshot";
  const returning = steps.find((it) => it.action === action && it.number === number);
  const line = `${what} ${number} was returned by ${describeCall(setting, returning, indexes)}`;
  if (hasChanged) return `${line}${error.change}\n`;
  const { value } = messages.get(number);
  if (value !== undefined && value !== null) return `${line}\n`;
  return `${line}, and is ${value}: an update returns the message that the other replicas receive\n`;
}

/** Writes the history and the steps, and returns both paths. */
function storeFailure(setting, failure, seed, path) {
  const history = saveHistory(failure.text, path === undefined ? undefined : beside(path));
  const steps = path ?? history.replace(/\.rah$/, ".json");
  const { kind, replicas, profile } = setting;
  const operation = operationOf(setting, failure);
  const { cause, text } = failure;
  store(steps, { seed, kind, replicas, profile, steps: failure.steps, cause, history: text, operation });
  return [history, steps];
}

/** Throws `RangeError` if the steps cannot be written to this file, or the history to the one beside it. */
export function requireWritable(path) {
  const given = `failure: ${inspect(path)}`;
  if (typeof path !== "string" || path === "") {
    throw new RangeError(`${given}: expected the path of a file, such as 'failure.json'`);
  }
  const folder = dirname(path);
  if (!isFolder(folder)) {
    const problem = existsSync(folder) ? "is no folder" : "does not exist";
    throw new RangeError(
      `${given}: the folder ${inspect(folder)} ${problem}, so no failure could be stored: create it, or pass another ` +
        "path",
    );
  }
  for (const it of [path, beside(path)]) {
    if (isFolder(it)) throw new RangeError(`${given}: ${inspect(it)} is a folder: expected the path of a file`);
    if (canWrite(existsSync(it) ? it : folder)) continue;
    throw new RangeError(
      `${given}: ${inspect(it)} cannot be written: change the permissions of the file or its folder, or pass another ` +
        "path",
    );
  }
}

const isFolder = (path) => statSync(path, { throwIfNoEntry: false })?.isDirectory() ?? false;

function canWrite(path) {
  try {
    accessSync(path, constants.W_OK);
    return true;
  } catch {
    return false;
  }
}

const beside = (path) => `${path.replace(/\.[^./]*$/, "")}.rah`;
const header = (text) => text.split("\n").slice(0, 2).join("\n");
const indented = (text) => text.split("\n").map((it) => (it === "" ? "" : `    ${it}`)).join("\n").trimEnd();

/** Returns the call of a replica's method that a step makes. */
function describeCall(setting, step, indexes) {
  const { action, replica, number, method } = step;
  const nameOf = (it) => inspect(setting.replicas[it]);
  const name = nameOf(replica);
  const calls = {
    update: callOf(step, indexes),
    deliver: `receive(message ${number})`,
    duplicate: `receive(message ${number}) again`,
    merge: `merge(state of ${nameOf(number)})`,
    snapshot: "state()",
    merge_snapshot: `merge(state ${number}, which was taken earlier)`,
    save: "save()",
    restart: "load(saved state)",
    read: "read()",
  };
  return action === "join" ? `${nameOf(number)}: fork(${name})` : `${name}: ${calls[action]}`;
}
