// The command `yehatu`: checks logs, watches a history, shows a failure, and runs a stored failure again.
import { closeSync, openSync, writeFileSync } from "node:fs";
import { basename, dirname, extname, join, relative } from "node:path";
import { fileURLToPath, pathToFileURL } from "node:url";
import { parseArgs } from "node:util";
import { runDemo } from "./demo.js";
import { MonitorExited, ReportFailed } from "./errors.js";
import { checkLogs, describe } from "./log_check.js";
import { Verdict } from "./log_history.js";
import { CannotJudge, LogFault, STANDARD_INPUT } from "./log_lines.js";
import { OPERATIONS } from "./operations.js";
import { explainPage, find } from "./program.js";
import { replay } from "./random_runs.js";
import { watch } from "./watch.js";

const PASS = 0;
const VIOLATION = 1;
const NO_VERDICT = 2;
const KINDS = Object.keys(OPERATIONS);
const USAGE = `\
usage: yehatu check [--kind KIND] [--object NAME] [--replicas A,B,..] [--history FILE] LOG ..
       yehatu explain [the same] [--page FILE] LOG ..
       yehatu watch [--page FILE] [--every SECONDS] [--follow] [--replies] [--stop] [FILE]
       yehatu demo [--page FILE]
       yehatu replay MODULE:CLASS FILE

check judges each object of a log of JSON lines, in which several files are merged by their messages. explain also shows
the lines that lead to a violation. watch passes a history in the text format to the monitor as it comes, from FILE or
standard input, and shows its status. demo tests a register with a bug at random, and writes a page about the shrunk
failure. replay runs a stored failure of checkRandom again.

  --kind KIND         ${KINDS.join(", ")}: the kind of objects whose lines state none
  --object NAME       check this object alone
  --replicas A,B,..   all replicas, in the order in which ties are broken
  --history FILE      write the history of the object that is judged last
  --page FILE         write a page about the first violation [of demo: yehatu_demo.html], of watch about the history
  --every SECONDS     show the status as often [1]
  --follow            wait for more at the end of FILE, which grows
  --replies           print the reply to each line, as \`ra_monitor check\`
  --stop              end at the first violation

exit status: 0 pass, 1 violation, 2 no verdict (standard error says why); of watch also 3, pass with refusals`;

/** Arguments that cannot be used. */
class WrongArguments extends Error {}

// The shortest and the longest time between two lines of the status, in seconds.
const EVERY = { least: 0.1, most: 86_400 };
const TEXT = { type: "string" };
const FLAG = { type: "boolean" };
const LOG_OPTIONS = { kind: TEXT, object: TEXT, replicas: TEXT, history: TEXT };
const SUBCOMMANDS = {
  check: { options: LOG_OPTIONS, run: (files, values) => check(files, values, false) },
  explain: { options: { ...LOG_OPTIONS, page: TEXT }, run: (files, values) => check(files, values, true) },
  watch: { options: { page: TEXT, every: TEXT, follow: FLAG, replies: FLAG, stop: FLAG }, run: watchHistory },
  demo: { options: { page: TEXT }, run: demo },
  replay: { options: {}, run: runAgain },
};

/** Runs the command and returns its exit status. */
export async function main(words) {
  if (words.some((it) => it === "--help" || it === "-h")) {
    console.log(USAGE);
    return PASS;
  }
  try {
    const [name, ...rest] = words;
    if (!Object.hasOwn(SUBCOMMANDS, name ?? "")) {
      throw new WrongArguments(`expected one of ${Object.keys(SUBCOMMANDS).join(", ")}, not ${name ?? "nothing"}`);
    }
    const { options, run } = SUBCOMMANDS[name];
    const { positionals, values } = parsed(rest, options);
    return await run(positionals, values);
  } catch (error) {
    // A RangeError says what is wrong with a file of steps or its path, and an error with a code comes from the system.
    const expected = [WrongArguments, CannotJudge, LogFault, MonitorExited, RangeError];
    if (!expected.some((it) => error instanceof it) && error.code === undefined) throw error;
    const hint = error instanceof WrongArguments ? "; `yehatu --help` lists the arguments" : "";
    console.error(`yehatu: ${error.message}${hint}`);
    return NO_VERDICT;
  }
}

function parsed(args, options) {
  try {
    return parseArgs({ args, options, allowPositionals: true });
  } catch (error) {
    throw new WrongArguments(error.message);
  }
}

function check(files, { kind, object: only, replicas, history, page }, withContext) {
  if (files.length === 0) throw new WrongArguments("there is no LOG: expected files of JSON lines");
  if (kind !== undefined && !KINDS.includes(kind)) throw new WrongArguments(`--kind is one of ${KINDS.join(", ")}`);
  const verdicts = new Set();
  for (const judged of checkLogs(files, { kind, only, replicas: replicas?.split(",") })) {
    console.log(describe(judged, withContext));
    if (history !== undefined) writeFileSync(history, judged.history);
    const isFirst = judged.verdict === Verdict.VIOLATION && !verdicts.has(Verdict.VIOLATION);
    if (isFirst && page !== undefined) writePage(page, judged.history);
    verdicts.add(judged.verdict);
  }
  if (verdicts.has(Verdict.VIOLATION)) return VIOLATION;
  return verdicts.size === 1 && verdicts.has(Verdict.PASS) ? PASS : NO_VERDICT;
}

function writePage(path, history) {
  writeFileSync(path, explainPage(find(), history));
  console.log(`the page about it: ${path}`);
}

function watchHistory(files, { every = "1", ...chosen }) {
  if (files.length > 1) throw new WrongArguments("watch takes one FILE");
  const path = files[0] === STANDARD_INPUT ? undefined : files[0];
  const seconds = Number(every);
  if (!(seconds >= EVERY.least && seconds <= EVERY.most)) {
    const expected = `expected a number of seconds from ${EVERY.least} to ${EVERY.most}`;
    throw new WrongArguments(`--every: ${expected}, not ${every}`);
  }
  if (chosen.follow && path === undefined) {
    throw new WrongArguments("--follow needs a FILE: standard input is read until it ends");
  }
  // It is written at the end, so that a path that cannot be written has to be found before.
  if (chosen.page !== undefined) closeSync(openSync(chosen.page, "a"));
  return watch({ ...chosen, path, every: seconds });
}

async function demo(words, { page = "yehatu_demo.html" }) {
  if (words.length > 0) throw new WrongArguments(`demo has no argument ${words[0]}`);
  const steps = `${join(dirname(page), basename(page, extname(page)))}.json`;
  const { text, history } = await runDemo(steps);
  console.log(text);
  writePage(page, history);
  const module = relative(".", fileURLToPath(new URL("demo.js", import.meta.url)));
  console.log(`the same run again: yehatu replay ${module}:Register ${steps}`);
  return PASS;
}

async function runAgain(words) {
  const [named = "", file] = words;
  const at = named.lastIndexOf(":");
  if (words.length !== 2 || at < 1) throw new WrongArguments("replay needs MODULE:CLASS and a FILE");
  const module = await import(pathToFileURL(named.slice(0, at)));
  const makeReplica = module[named.slice(at + 1)];
  if (typeof makeReplica !== "function") throw new WrongArguments(`${named}: the module has no such class`);
  try {
    console.log(`pass: ${await replay(makeReplica, file)} steps`);
    return PASS;
  } catch (error) {
    if (!(error instanceof ReportFailed)) throw error;
    console.log(error.message);
    return VIOLATION;
  }
}
