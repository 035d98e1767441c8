// The end of a watched history: its verdict or fault, and its page.
import { writeFileSync } from "node:fs";
import { CHECK_PROGRAM, COMPLETE, OWN_PROGRAM, SYNTAX_FAULT, describeExit, runExplain } from "./program.js";
import { describeCounts, describeVerdict, printable, printableText } from "./watch_display.js";

const PASS = 0;
const NO_VERDICT = 2;
const NO_PAGE = "there is no page: the program has no `explain`, or that took too long";

/**
 * Shows the verdict or the fault, writes the page, and returns the exit status. `outcome` has the counts, the seconds,
 * the status of the monitor, its last line (such as `end yes 2`, or nothing after a fault) and its standard error.
 */
export function showEnd(program, outcome, text, { path, page }, display) {
  const { counts, seconds, end } = outcome;
  const status = end && COMPLETE.includes(outcome.status) ? outcome.status : NO_VERDICT;
  const rate = counts.reports / Math.max(seconds, 0.001);
  const verdict = status === NO_VERDICT ? "no verdict" : describeVerdict(counts);
  display.print(verdict + describeCounts(counts, seconds, rate));
  if (status === NO_VERDICT) showFault(program, outcome, text, display);
  else process.stdout.write(`${end}\n`);
  const hasPage = page !== undefined && writePage(program, text, page, display);
  const hasMoreToShow = status !== PASS || (page !== undefined && !hasPage);
  const history = path ?? (hasMoreToShow ? keepHistory(text, display) : undefined);
  if (!hasPage) display.print(howToMakeAPage(program, history));
  return status;
}

/** Shows what is wrong with the text and what is expected, or how the program failed. */
function showFault(program, { status, stderr }, text, display) {
  if (!SYNTAX_FAULT.test(stderr)) {
    display.print(`yehatu: ${describeExit(program, status, stderr)}`);
    return;
  }
  display.print(stderr.trim());
  const ran = text.withFile((file) => runExplain(program, file));
  if (ran?.stdout) {
    display.print(printableText(ran.stdout).trimEnd());
  } else {
    const line = text.line(Number(stderr.match(/\d+/)[0]));
    display.print(`${printable(line)}: \`ra_monitor help format\` says what is expected`);
  }
}

/** Writes the page, or says why there is none. Returns whether it is written. */
function writePage(program, text, page, display) {
  const ran = text.withFile((file) => runExplain(program, file, "--html"));
  if (!ran?.stdout?.startsWith("<!doctype html>")) {
    const why = text.fault ? `there is no page: the text could not be kept (${text.fault})` : NO_PAGE;
    display.print(`yehatu: ${why}`);
    return false;
  }
  try {
    writeFileSync(page, ran.stdout);
  } catch (error) {
    display.print(`yehatu: there is no page: ${error.message}`);
    return false;
  }
  display.print(`the page about it: ${page}`);
  return true;
}

/** Writes the text to a file, whose path it shows and returns. Returns nothing if that cannot be done. */
function keepHistory(text, display) {
  if (text.fault) return undefined;
  try {
    const path = text.copy();
    display.print(`the history: ${path}`);
    return path;
  } catch (error) {
    display.print(`yehatu: the history is not kept: ${error.message}`);
    return undefined;
  }
}

function howToMakeAPage(program, path) {
  if (path === undefined) return "--page FILE writes a page about such a run";
  // What was built to check cannot explain.
  const named = program === CHECK_PROGRAM ? OWN_PROGRAM : program;
  return `a page about it: ${quoted(named)} explain --html ${quoted(path)} > page.html`;
}

/** Returns a word as a shell reads it. */
const quoted = (word) => (/^[\w@%+=:,./-]+$/.test(word) ? word : `'${word.replaceAll("'", `'"'"'`)}'`);
