// What `watch` shows on standard error: one line that a terminal rewrites, else plain lines.
import { MEANINGS } from "./failure_report.js";

const DEFAULT_COLUMNS = 80;
// The longest part of a line of the history that is shown, in bytes.
const SHOWN_BYTES = 60;
const GREEN = "\x1b[32m";
const RED = "\x1b[1;31m";
const PLAIN = "\x1b[0m";

/**
 * Shows the status and messages. A terminal has the status in its last line, which is cut at the width and is
 * rewritten. It is coloured unless NO_COLOR is set. What is no terminal, or a dumb one, gets plain lines.
 */
export class Display {
  #stream;
  #isLive;
  #hasColours;
  // The number of characters of the status that the terminal has in its last line.
  #shown = 0;

  constructor(stream) {
    this.#stream = stream;
    this.#isLive = Boolean(stream.isTTY) && process.env.TERM !== "dumb";
    this.#hasColours = this.#isLive && !process.env.NO_COLOR;
  }

  /** Shows the status, which begins with the verdict. */
  show(verdict, rest) {
    if (!this.#isLive) {
      this.#stream.write(`${verdict}${rest}\n`);
      return;
    }
    // A full line would move the cursor to the next one.
    const text = `${verdict}${rest}`.slice(0, (this.#stream.columns || DEFAULT_COLUMNS) - 1);
    const padding = " ".repeat(Math.max(this.#shown - text.length, 0));
    const head = text.slice(0, verdict.length);
    this.#shown = text.length;
    this.#stream.write(`\r${this.#coloured(head)}${text.slice(head.length)}${padding}`);
  }

  /** Prints lines that stay. */
  print(text) {
    this.clear();
    this.#stream.write(`${text}\n`);
  }

  /** Removes the status, so that other output can follow. */
  clear() {
    if (this.#shown === 0) return;
    this.#stream.write(`\r${" ".repeat(this.#shown)}\r`);
    this.#shown = 0;
  }

  #coloured(verdict) {
    if (!this.#hasColours) return verdict;
    return `${verdict.startsWith("yes") ? GREEN : RED}${verdict}${PLAIN}`;
  }
}

/** Returns the verdict so far, and of a violation its line. */
export function describeVerdict({ violation }) {
  return violation === null ? "yes" : `${violation.reply} at line ${violation.line}`;
}

/** Returns the counts that follow the verdict, after this number of seconds and at this number of reports a second. */
export function describeCounts(counts, seconds, rate) {
  const reports = `${grouped(counts.reports)} (${grouped(Math.round(rate))}/s)`;
  const text = ` after ${Math.round(seconds)} s: reports ${reports}`;
  if (counts.violation !== null) return `${text}, those after line ${counts.violation.line} not judged`;
  const lags = counts.lags().map(([name, lag]) => `${printable(name)} ${grouped(lag)}`);
  return `${text}, labels ${grouped(counts.labels)}, refused ${grouped(counts.refused)}, lag ${lags.join(", ")}`;
}

const grouped = (number) => number.toLocaleString("en-US");

/** Returns a violation or a refusal in words. */
export function describeNotice({ line, command, reply }) {
  const text = `line ${line}, ${printable(command)}: ${reply}`;
  if (!reply.startsWith("no ")) return `${text} (the first with this cause)`;
  return `${text}: ${MEANINGS[reply.split(" ").at(-1)] ?? "not explained"}`;
}

/** Returns the beginning of a line with no control characters: what is not plain ASCII is `\x` and two digits. */
export function printable(line) {
  return printableText(line.slice(0, SHOWN_BYTES)) + (line.length > SHOWN_BYTES ? " .." : "");
}

/** Does the same for lines in full. */
export const printableText = (text) => text.replace(/[^\n -~]/g, escaped);

const escaped = (character) => `\\x${character.charCodeAt(0).toString(16).padStart(2, "0")}`;
