// Reports on a failed history, in the user's names.
import { randomBytes } from "node:crypto";
import { writeFileSync } from "node:fs";
import { tmpdir } from "node:os";
import { join } from "node:path";
import { inspect } from "node:util";
import { MonitorExited, NotLinearizable, Refused } from "./errors.js";
import { explainViolation } from "./program.js";
import { firstEqualRead, observedIdentifiers, parseIdentifiers } from "./shown.js";
import { isOperation } from "./translation.js";

// The largest number of a history's last lines in a message.
const SHOWN_LINES = 16;
const HEADER_LINES = 2;
// The largest number of suggested changes in a message.
const SHOWN_CHANGES = 5;
export const MEANINGS = {
  order: "its clock is not greater than each clock that it sees",
  update: "it cannot be applied at its position in the order",
  query: "its result does not follow from the updates that it sees",
  "stamp-taken": "another operation of its replica used this clock before",
  "id-taken": "another addition used this identifier before",
};
// The meanings of a list's violations.
const LIST_MEANINGS = {
  order: "no single order of the elements agrees with all reads and insertions",
  update: "it inserts an element that was inserted before, or names one that was not",
  query: "it does not follow from the updates that it sees",
};
// The meanings of the violations of each kind, where they differ.
const OWN_MEANINGS = {
  list: LIST_MEANINGS,
  any: { query: "an earlier read that sees the same updates returned another value" },
  mvregister: {
    query: "it does not return exactly the values of the visible writes that no other visible write replaced",
  },
};
// By what `explain` says of other orders than that of the clocks.
const ANOTHER_ORDER = "another order explains what was reported: suspect a clock, a tie-break or a delivery";
const NO_ORDER = "no order explains what was reported, whatever the clocks are";
// What may be wrong with a violation of an RGA.
const OTHER_CLOCKS = "if the type does not order its elements by clocks of its own, check it as the kind list";
const NOT_CAUSAL = "refused not-causal ";

/**
 * The commands of a failed history, described in the user's names. `messageKeys` has the key of each label's message,
 * and `notes` the lines that are printed before the command with a given number. `places`, if any, has the place of
 * each command in a log, which descriptions then begin with. `calls` has the call of each message's update of any type,
 * by the message's key.
 */
export class FailureReport {
  #translator;
  #messageKeys;
  #notes;
  #places;
  #commandOf;
  #calls = new Map();

  constructor(translator, text, messageKeys, notes, { places = [], calls = new Map() } = {}) {
    this.#translator = translator;
    this.#messageKeys = messageKeys;
    this.#notes = notes;
    this.#places = places;
    this.commands = text.split("\n").slice(HEADER_LINES, -1);
    this.#commandOf = [...this.commands.keys()].filter((it) => isOperation(this.commands[it]));
    for (const [label, key] of messageKeys) {
      if (calls.has(key) && label < this.#commandOf.length) this.#calls.set(this.#commandOf[label], calls.get(key));
    }
  }

  /** Returns a description of the command with this number. */
  describe(command) {
    const call = this.#calls.has(command) ? `: ${this.#calls.get(command)}` : "";
    const description = `${this.#describeLine(this.commands[command])}${call}`;
    return this.#places.length > 0 ? `${this.#places[command]}: ${description}` : description;
  }

  #describeLine(line) {
    return this.#translator.describe(line, (label) => this.#describeLabel(label));
  }

  #describeLabel(label) {
    const key = this.#messageKeys.has(label) ? `message ${inspect(this.#messageKeys.get(label))}` : "";
    const description = this.describe(this.#commandOf[label]);
    if (this.#places.length > 0) return `${key || "an update"} (${description})`;
    return `${key}${key && ", "}label ${label} (${description})`;
  }

  /**
   * Returns a table of the commands from number `first` on: each with its reply, if any, and its description. `last`,
   * if given, describes a call behind them, for which there is no command. If there are more than `most` rows, and that
   * is given, those in the middle are left out.
   */
  formatCommands(replies = [], { first = 0, most = Infinity, last } = {}) {
    const notesOf = (number) => (this.#notes.get(number) ?? []).map((note) => ["", "", note]);
    const rowsOf = (line, number) => [...notesOf(number), [line, replies[number] ?? "", this.describe(number)]];
    const rows = this.commands.flatMap((line, number) => (number < first ? [] : rowsOf(line, number)));
    if (last !== undefined) rows.push(...notesOf(this.commands.length), ["", "", last]);
    if (rows.length > most) {
      const leftOut = rows.length - most;
      rows.splice(most >> 1, leftOut, ["..", "", `${leftOut} lines are left out here, and not in the file`]);
    }
    const widths = [0, 1].map((column) => Math.max(0, ...rows.map((row) => row[column].length)));
    const padded = rows.map(([line, reply, text]) => [line.padEnd(widths[0]), reply.padEnd(widths[1]), text]);
    return padded.map((row) => `    ${row.filter((it) => it !== "").join("  ")}`).join("\n");
  }

  /** Returns the program's explanation of a violation, or null if there is none. */
  explain(text, reply, program) {
    return reply.startsWith("no ") ? explainViolation(program, text) : null;
  }

  /**
   * Describes the last command of the text and its reply. A violation is followed by the expected result, whether
   * another order explains it, and the changes of deliveries that would explain it, if there is an explanation.
   */
  summarize(reply, explanation) {
    const operation = this.describe(this.commands.length - 1);
    const mayBeList = this.#translator.kind === "rga" && reply.startsWith("no ") && explanation?.one_list !== false;
    const hint = mayBeList ? `\n${OTHER_CLOCKS}` : "";
    return `${operation}: ${this.describeReply(reply)}${this.#formatExplanation(explanation)}${hint}`;
  }

  /** Returns the expected result of the last command as `{ value }`, or null if it is unknown. */
  expectedRead(explanation) {
    const [, word, result] = explanation?.right?.split(" ") ?? [];
    return word === "read" ? { value: this.#translator.resultOf(result) } : null;
  }

  #formatExplanation(explanation) {
    if (explanation === null) return "";
    const { right: expected, another_order: other, would_be_right: changes, tried } = explanation;
    const rows = changes.slice(0, SHOWN_CHANGES).map((it) => `explained if ${this.#describeChange(it)}`);
    if (other !== undefined) rows.unshift(other ? ANOTHER_ORDER : NO_ORDER);
    if (expected !== null) rows.unshift(`expected: ${this.#describeLine(expected)}`);
    if (tried > 0 && changes.length === 0) rows.push(noneHelps(tried));
    return rows.map((row) => `\n${row}`).join("");
  }

  #describeChange(change) {
    if ("gets" in change) return `${this.#describeLabel(change.gets)} had been delivered before`;
    const [[kind, line]] = Object.entries(change);
    const command = this.describe(line - HEADER_LINES - 1);
    if (kind === "misses_line") return `this had not been delivered: ${command}`;
    return `it had come before this: ${command}`;
  }

  /** Returns what a reply to the last command means. */
  describeReply(reply) {
    if (reply.startsWith(NOT_CAUSAL)) {
      const missing = this.#describeLabel(Number(reply.slice(NOT_CAUSAL.length)));
      return `refused, ${missing} has to be delivered first`;
    }
    const cause = reply.split(" ").find((it) => it in MEANINGS);
    const verdict = reply.startsWith("no ") ? "not RA-linearizable" : "refused";
    const isRemoval = this.#translator.kind === "orset" && this.commands.at(-1).includes(" remove ");
    if (cause === "query" && isRemoval) return `${verdict}, ${this.#compareIdentifiers()}`;
    if (cause === "query" && this.#translator.kind === "any") {
      return `${verdict}, ${OWN_MEANINGS.any.query}${this.#describeEqualRead()}`;
    }
    const meanings = { ...MEANINGS, ...OWN_MEANINGS[this.#translator.kind] };
    return cause === undefined ? reply : `${verdict}, ${meanings[cause]}`;
  }

  /** Describes the read that the last command, a read, is compared with. */
  #describeEqualRead() {
    const found = firstEqualRead(this.commands);
    return found === undefined ? "" : `: ${this.describe(found)}`;
  }

  /** Compares the identifiers that the last command, a removal, names with those that its replica has. */
  #compareIdentifiers() {
    const [name, , element, field] = this.commands.at(-1).split(" ");
    const named = parseIdentifiers(field.slice(1));
    const observed = observedIdentifiers(this.commands.slice(0, -1), name, Number(element));
    const describe = (numbers) =>
      this.#translator.describeIdentifiers([...numbers].sort((one, other) => one - other));
    const meaning = named.some((it) => !observed.has(it))
      ? "a delivery was not reported, or the removal names what its replica never had"
      : "the replica lost an addition that was delivered, or the removal names too few; if an addition replaces " +
        "older ones, leave the identifiers out";
    const comparison = `it names the identifiers ${describe(named)}, and by the reports its replica had`;
    return `${comparison} ${describe(observed)}: ${meaning}`;
  }
}

/** Creates the error for a history whose last command had this reply, and saves the history. */
export function createError(report, text, reply, path, program) {
  const last = report.commands.length - 1;
  if (!/^(no|refused) /.test(reply)) {
    const command = JSON.stringify(report.commands[last]);
    return new MonitorExited(
      `the program is not a monitor: it replied ${JSON.stringify(reply)} to ${command}; ` +
        "set RA_MONITOR to the path of ra_monitor",
    );
  }
  const saved = saveHistory(text, path);
  const operation = report.describe(last);
  const shown = report.formatCommands([], { first: Math.max(0, last + 1 - SHOWN_LINES) });
  const place = `line ${last + HEADER_LINES + 1} of ${saved}, reply "${reply}"`;
  const summary = report.summarize(reply, report.explain(text, reply, program));
  const message = `${summary}\n${place}; the last lines:\n${shown}`;
  return new (reply.startsWith("no ") ? NotLinearizable : Refused)(message, operation, reply, saved);
}

/** Writes the history to this file, or to a new temporary file, and returns the path. */
export function saveHistory(text, path) {
  const saved = path ?? join(tmpdir(), `yehatu_${randomBytes(6).toString("hex")}.rah`);
  // A temporary file is a new one.
  writeFileSync(saved, text, { flag: path === undefined ? "wx" : "w" });
  return saved;
}

// That none of the changes that `explain` tried explains the operation, in its words.
function noneHelps(tried) {
  if (tried === 1) return "the one change that was tried does not explain it";
  return `none of the ${tried} changes that were tried explains it`;
}
