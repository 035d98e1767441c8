// A run of `watch` as a process, whose outputs a test reads while it runs.
import assert from "node:assert/strict";
import { spawn } from "node:child_process";
import { appendFileSync, writeFileSync } from "node:fs";
import { join } from "node:path";
import { setTimeout as sleep } from "node:timers/promises";
import { fileURLToPath } from "node:url";

export const CLIENT = fileURLToPath(new URL("..", import.meta.url));
const COMMAND = join(CLIENT, "bin", "yehatu.js");
// A run that has not written what is expected by then is stuck, in milliseconds.
const PATIENCE = 30_000;

/** Returns the environment of a run, where undefined removes a variable. Terminals have the usual type and colours. */
function environment(changes) {
  const chosen = { ...process.env, TERM: "xterm", NO_COLOR: undefined, ...changes };
  return Object.fromEntries(Object.entries(chosen).filter(([, value]) => value !== undefined));
}

/**
 * A run of `watch` whose input stays open. With a number of columns its standard error is a terminal, which `script`
 * makes, and its input is a file that grows.
 */
export class Watched {
  stdout = "";
  stderr = "";
  #process;
  #path;
  #end;

  constructor(words, { columns, cwd, ...changes }) {
    const settings = { cwd, env: environment(changes), detached: true };
    const all = [process.execPath, COMMAND, "watch", ...words];
    if (columns === undefined) {
      this.#process = spawn(all[0], all.slice(1), settings);
    } else {
      this.#path = join(cwd, "input");
      writeFileSync(this.#path, "");
      const command = [...all, "--follow", this.#path].map((it) => `'${it}'`).join(" ");
      const inTerminal = `stty cols ${columns}; exec ${command} > output`;
      this.#process = spawn("script", ["-qefc", inTerminal, "typescript"], settings);
    }
    const { stdin, stdout, stderr } = this.#process;
    stdin.on("error", () => {});
    stdout.setEncoding("latin1").on("data", (it) => (this[columns === undefined ? "stdout" : "stderr"] += it));
    stderr.setEncoding("latin1").on("data", (it) => (this.stderr += it));
    this.#end = new Promise((resolve) => this.#process.on("close", (code, signal) => resolve(code ?? signal)));
  }

  /** The number of the process. */
  get pid() {
    return this.#process.pid;
  }

  /** Writes to the input. */
  write(text) {
    if (this.#path === undefined) this.#process.stdin.write(text, "latin1");
    else appendFileSync(this.#path, text, "latin1");
  }

  /** Ends the input. */
  close() {
    if (this.#path === undefined) this.#process.stdin.end();
    else this.#process.stdin.write("\x03");
  }

  /** Sends what Ctrl-C sends, to all processes of the run's group. */
  interrupt() {
    process.kill(-this.#process.pid, "SIGINT");
  }

  /** Returns whether the process has ended. */
  hasEnded() {
    return this.#process.exitCode !== null || this.#process.signalCode !== null;
  }

  /** Waits until the stream has the text this number of times. */
  async waitFor(stream, text, count = 1) {
    const end = Date.now() + PATIENCE;
    while (this[stream].split(text).length <= count) {
      const written = `${this.stdout.slice(-500)}, ${this.stderr.slice(-500)}`;
      assert.ok(Date.now() < end, `no ${JSON.stringify(text)} in ${stream}: ${written}`);
      await sleep(10);
    }
  }

  /** Waits for the end and returns the exit status, or the signal that ended it. */
  wait() {
    return Promise.race([this.#end, sleep(PATIENCE, "it has not ended", { ref: false })]);
  }

  /** Kills the run if it has not ended. */
  async stop() {
    this.#process.kill("SIGKILL");
    await this.#end;
  }

  /** Returns the lines of standard error so far. */
  lines() {
    return this.stderr.split(/\r?\n/).slice(0, -1);
  }
}

/**
 * Returns what a terminal without limits shows: its lines after this text, of which escape sequences are colours. A
 * carriage return goes back to the beginning of the line.
 */
export function screen(written) {
  return written.split("\n").map((line) => {
    let shown = "";
    for (const part of line.split("\r").map(stripColours)) shown = part + shown.slice(part.length);
    return shown.trimEnd();
  });
}

/** Returns the text without the escape sequences of colours. */
export const stripColours = (text) => text.replace(/\x1b\[[\d;]*m/g, "");
