// The search for the program, and its runs on whole histories.
import { spawn, spawnSync } from "node:child_process";
import { accessSync, constants, existsSync, realpathSync, statSync } from "node:fs";
import { delimiter, join } from "node:path";
import { fileURLToPath } from "node:url";
import { MonitorExited } from "./errors.js";

// The program inside an installed package, as tools/package puts it there.
const INSTALLED = fileURLToPath(new URL("../installed/bin/ra_monitor", import.meta.url));
const REPOSITORY = fileURLToPath(new URL("../../..", import.meta.url));
export const OWN_PROGRAM = join(REPOSITORY, "ra_monitor");
export const CHECK_PROGRAM = join(REPOSITORY, "crates", "ra_check_cli", "out", "ra_check_cli");
export const EXPLAIN_PROGRAM = join(REPOSITORY, "crates", "ra_explain_cli", "out", "ra_explain_cli");
// The longest time that an explanation may take, in milliseconds.
const EXPLAIN_TIMEOUT = 60_000;
// The exit statuses of a run that read its whole input: a pass, a violation, and a pass with a rejected report.
export const COMPLETE = [0, 1, 3];
// The standard error of a run that could not parse its input.
export const SYNTAX_FAULT = /^line \d+: (syntax|truncated|too long|full)\n?$/;

/**
 * Returns the path of the given program, else of RA_MONITOR, else of the one that is found without being named. That is
 * the one inside this package, else in a clone the repository's own, else `ra_monitor` on the path.
 */
export function find(program) {
  const chosen = program || process.env.RA_MONITOR || unnamed();
  const found = which(chosen);
  if (found !== undefined) return found;
  throw new MonitorExited(
    `${chosen} is not a program: pass the path of ra_monitor as \`program\`, or set RA_MONITOR to it`,
  );
}

function which(name) {
  const paths = name.includes("/") ? [name] : (process.env.PATH ?? "").split(delimiter).map((it) => join(it, name));
  return paths.find(isProgram);
}

function unnamed() {
  // In a clone this module is below the tool that builds the program.
  const own = isFile(join(REPOSITORY, "tools", "build")) ? [OWN_PROGRAM] : [];
  const found = [INSTALLED, ...own].find(isFile) ?? which("ra_monitor");
  if (found !== undefined) return found;
  throw new MonitorExited(
    "there is no program ra_monitor: install a package of yehatu that contains it (tools/package of the repository " +
      "makes one), or set RA_MONITOR to its path",
  );
}

/**
 * Returns the path of the program for many short runs. The repository's own `ra_monitor` checks at each start whether
 * it has to be built, so it is run once, and then the program that it built is used directly.
 */
export function findForManyRuns(program) {
  const found = find(program);
  if (realpathSync(found) !== OWN_PROGRAM) return found;
  // Standard error is not captured, so that a first build shows its progress.
  const ran = spawnSync(found, ["check"], {
    input: "RAH 2 counter\nreplicas a\n",
    stdio: ["pipe", "ignore", "inherit"],
  });
  if (ran.status === 0) return CHECK_PROGRAM;
  throw new MonitorExited(
    `${found} exited with status ${ran.status} before it read any input; see its standard error above`,
  );
}

/** Checks a whole history. Returns the replies, one for each command and the `end` line, and the exit status. */
export function checkText(program, text) {
  const ran = spawnSync(program, ["check"], { input: text, encoding: "utf8", maxBuffer: 1 << 30 });
  // EPIPE says that the program ended before it read all, and then its status and standard error say why.
  if (ran.error && ran.error.code !== "EPIPE") {
    throw new MonitorExited(`${program} could not be started: ${ran.error.message}`);
  }
  return completeRun(program, text, ran.status ?? ran.signal, ran.stdout, ran.stderr);
}

/** Returns the replies and the status of a run. Throws `MonitorExited` if it did not read its whole input. */
function completeRun(program, text, status, stdout, stderr) {
  const replies = stdout.split("\n").slice(0, -1);
  // A shell that fails exits with a status of the monitor too, so the status alone shows no pass.
  if (COMPLETE.includes(status) && replies.at(-1)?.startsWith("end ")) return { replies, status };
  throw new MonitorExited(describeExit(program, status, stderr, text));
}

/** The program on a whole history, which it checks while the caller does other things. */
export class Check {
  #program;
  #text;
  #process;
  #stdout = "";
  #stderr = "";
  #end;

  constructor(program, text) {
    this.#program = program;
    this.#text = text;
    this.#process = spawn(program, ["check"]);
    this.#end = new Promise((resolve) => this.#listen(resolve));
    this.#process.stdin?.end(text);
  }

  #listen(resolve) {
    const { stdin, stdout, stderr } = this.#process;
    // A write error means that the program has exited, which is handled when the process closes.
    stdin?.on("error", () => {});
    stdout?.setEncoding("latin1").on("data", (chunk) => {
      this.#stdout += chunk;
    });
    stderr?.setEncoding("utf8").on("data", (chunk) => {
      this.#stderr += chunk;
    });
    this.#process.on("error", (error) => resolve({ error }));
    this.#process.on("close", (code, signal) => resolve({ status: code ?? signal }));
  }

  /** Waits for the program. Returns the replies, one for each command and the `end` line, and the exit status. */
  async wait() {
    const { error, status } = await this.#end;
    if (error) throw new MonitorExited(`${this.#program} could not be started: ${error.message}`);
    return completeRun(this.#program, this.#text, status, this.#stdout, this.#stderr);
  }

  /** Kills the program. */
  async stop() {
    this.#process.kill("SIGKILL");
    await this.#end;
  }
}

/** Returns the explanation of a violation as a JSON object, or null if there is none. */
export function explainViolation(program, text) {
  if (program === undefined) return null;
  const ran = runExplain(program, text, "--json");
  try {
    const explanation = ran.status === 1 ? JSON.parse(ran.stdout) : null;
    return explanation?.answer === "no" ? explanation : null;
  } catch {
    return null;
  }
}

/** Returns the page of `explain --html` about a history. Throws `MonitorExited` if the program cannot explain. */
export function explainPage(program, text) {
  const ran = runExplain(program, text, "--html");
  if (COMPLETE.includes(ran.status)) return ran.stdout;
  throw new MonitorExited(`${program} cannot explain, so there is no page: install one that has \`explain\``);
}

/**
 * Runs `ra_monitor explain` on a text or an open file, without output if the program cannot explain. The repository's
 * own program is not built for this, since that takes minutes.
 */
export function runExplain(program, text, ...options) {
  const path = [OWN_PROGRAM, CHECK_PROGRAM].includes(realPathOf(program)) ? EXPLAIN_PROGRAM : program;
  const source = typeof text === "number" ? { stdio: [text, "pipe", "pipe"] } : { input: text };
  const settings = { encoding: "utf8", maxBuffer: 1 << 30, timeout: EXPLAIN_TIMEOUT };
  return spawnSync(path, ["explain", ...options], { ...source, ...settings });
}

function realPathOf(program) {
  try {
    return realpathSync(program);
  } catch {
    return program;
  }
}

/** Describes an abnormal exit: its standard error and, if the program could not parse the text, the explanation. */
export function describeExit(program, status, stderr, text) {
  const printed = stderr.trim();
  const quoted = printed ? JSON.stringify(printed) : "empty";
  const description = `${program} exited with status ${status}; its standard error is ${quoted}`;
  const ran = status === 2 && SYNTAX_FAULT.test(stderr) ? runExplain(program, text) : null;
  return ran?.status === 2 && ran.stdout ? `${description}\n\n${ran.stdout.trim()}` : description;
}

function isProgram(path) {
  try {
    accessSync(path, constants.X_OK);
    return isFile(path);
  } catch {
    return false;
  }
}

const isFile = (path) => existsSync(path) && statSync(path).isFile();
