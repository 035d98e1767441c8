// The history of one object of a log, and the program's verdict on it in the log's own words.
import { Transcript } from "./driver.js";
import { NotRepresentable } from "./errors.js";
import { DELIVER, LogFault, PART, READ, thing } from "./log_lines.js";
import { checked } from "./log_shapes.js";
import { MAX_COMMANDS, MAX_REPLICAS, RankedClocks } from "./numbers.js";
import { checkText } from "./program.js";
import { Reports } from "./reports.js";
import { Translator } from "./translation.js";

// The largest number of lines that lead to a violation and are shown.
const SHOWN_LINES = 16;

/** What came of one object. */
export const Verdict = Object.freeze({
  PASS: "pass",
  VIOLATION: "violation",
  REJECTED: "not judged, since the monitor rejects a line",
  UNJUDGED: "cannot be judged",
});

/** The lines of one object of a log, translated into a history. The events are in an order that is causal. */
class LogHistory {
  #transcript = new Transcript();
  #translator;
  #reports;
  /** For each command, the line that it comes from. */
  places = [];

  constructor(kind, replicas, events) {
    const clocks = new RankedClocks(events.filter((it) => "stamp" in it).map((it) => BigInt(it.stamp)));
    this.#translator = new Translator(kind, replicas, thing(null), clocks);
    this.#reports = new Reports(this.#translator, this.#transcript);
    for (const event of events) this.#add(event, checked(event, kind));
  }

  #add({ place, replica, operation: word }, { operation, message }) {
    const index = this.#translator.replicas.indexOf(replica);
    try {
      if (word === DELIVER) this.#reports.deliver(index, message);
      else if (word === READ) this.#reports.read(index, operation);
      else if (word === PART) this.#reports.part(index, operation);
      else this.#reports.update(index, operation, message);
    } catch (error) {
      throw error instanceof NotRepresentable ? new LogFault(place, error.message) : error;
    }
    while (this.places.length < this.#transcript.lines.length) this.places.push(place);
  }

  /** Returns the text that the program reads, with this number of commands or all of them. */
  text(commands) {
    return this.#translator.header() + this.#transcript.lines.slice(0, commands).join("");
  }

  /** Returns a report on this text, which names the lines of the log. */
  report(text) {
    return this.#reports.failureReport(text, { places: this.places });
  }
}

/**
 * Checks the events of one object, which are in a causal order. Returns its name, kind and verdict; `details`, which
 * are the failure in the log's own words, or the totals of a pass; the lines that lead to a failure; and the history
 * that the program read, up to a failure. Throws `LogFault` if an event is malformed.
 */
export function judge(name, kind, replicas, events, program) {
  const judged = { name, kind, context: [], history: "" };
  const reason = obstacle(replicas, events);
  if (reason !== null) return { ...judged, verdict: Verdict.UNJUDGED, details: reason };
  const history = new LogHistory(kind, replicas, events);
  if (history.places.length > MAX_COMMANDS) {
    const details =
      `it has ${history.places.length} operations and deliveries, and a history at most ${MAX_COMMANDS}: check a ` +
      "part of the log, from a moment at which all replicas were equal";
    return { ...judged, verdict: Verdict.UNJUDGED, details };
  }
  const { replies } = checkText(program, history.text());
  const failed = replies.findIndex((it) => /^(no|refused) /.test(it));
  if (failed < 0) {
    return { ...judged, verdict: Verdict.PASS, details: totals(replicas, events), history: history.text() };
  }
  const text = history.text(failed + 1);
  const report = history.report(text);
  const details = report.summarize(replies[failed], report.explain(text, replies[failed], program));
  const verdict = replies[failed].startsWith("no ") ? Verdict.VIOLATION : Verdict.REJECTED;
  const numbers = [...Array(failed + 1).keys()].slice(-SHOWN_LINES);
  return { ...judged, verdict, details, context: numbers.map((it) => report.describe(it)), history: text };
}

/** Returns why the events cannot be judged, or null. */
function obstacle(replicas, events) {
  if (replicas.length > MAX_REPLICAS) {
    const late = events.find((it) => it.replica === replicas[MAX_REPLICAS]);
    const most = `a history at most ${MAX_REPLICAS} (${late.place} is of another one)`;
    return `it has ${replicas.length} replicas, and ${most}`;
  }
  if (replicas.length === 1 || events.some((it) => it.operation === DELIVER)) return null;
  return (
    `it has ${replicas.length} replicas and no deliveries, so nothing says what a replica had received: log a line ` +
    "with the operation deliver where a replica applies a message"
  );
}

function totals(replicas, events) {
  const deliveries = events.filter((it) => it.operation === DELIVER).length;
  const counts = [
    counted(events.length - deliveries, "operation", "operations"),
    counted(deliveries, "delivery", "deliveries"),
    counted(replicas.length, "replica", "replicas"),
  ];
  return `${counts[0]} and ${counts[1]} of ${counts[2]}`;
}

const counted = (count, one, several) => `${count} ${count === 1 ? one : several}`;
