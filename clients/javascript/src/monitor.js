// The program behind a pipe: commands in, replies out.
import { spawn } from "node:child_process";
import { MonitorExited } from "./errors.js";
import * as programs from "./program.js";

// The number of lines that are written at once. A smaller batch is written when the event loop turns.
const BATCH_LINES = 64;
// The number of bytes of standard error that are kept, counted from the end.
const STDERR_BYTES = 10_000;

/** A run of the program on one history. */
export class Monitor {
  /** The first reply that differs from the expected one: `{ command, reply }`, with commands numbered from 0. */
  unexpected = null;
  #process;
  #window;
  #lines = [];
  #written = [];
  #expected = [];
  #sent = 0;
  #answered = 0;
  #partialLine = "";
  #closingLines = [];
  #stderr = "";
  #waiting = [];
  #isScheduled = false;
  #startError = null;
  #isClosing = false;
  #isStopped = false;
  #hasEnded = false;
  #report = null;
  #end;

  /**
   * `names` are the names of the initial replicas: a letter a to z, then up to 15 letters a to z or digits. At most
   * `window` commands have no reply yet.
   */
  constructor(kind, names, { program, window = 4096 } = {}) {
    this.program = programs.find(program);
    this.#window = Math.max(window, 1);
    this.#process = spawn(this.program, ["check", "--report"]);
    this.#end = new Promise((resolve) => this.#listen(resolve));
    this.#lines.push(`RAH 2 ${kind}\nreplicas ${names.join(" ")}\n`);
  }

  /**
   * Sends a command without waiting for its reply. `unexpected` is the first reply that differs. Returns a promise to
   * wait for if the window is full, and undefined otherwise.
   */
  post(line, expected) {
    this.#append(line, expected);
    if (this.#sent - this.#answered >= this.#window) return this.#waitFor(this.#sent - this.#window + 1);
    if (this.#lines.length >= BATCH_LINES) this.#write();
    else this.#schedule();
    return undefined;
  }

  /** Sends a command, waits for its reply and returns it. */
  async tell(line) {
    const pending = new Promise((resolve) => this.#append(line, resolve));
    this.#write();
    const reply = await pending;
    if (reply === undefined) this.#throwExited();
    return reply;
  }

  /** Returns the reply to `verdict`, which says whether the history so far is explained. */
  verdict() {
    return this.tell("verdict");
  }

  /** Waits until each command has its reply. */
  async settle() {
    await this.#waitFor(this.#sent);
  }

  /** Returns the text so far, or the header with this number of commands. */
  history(commands) {
    const text = this.#written.join("") + this.#lines.join("");
    return commands === undefined ? text : firstLines(text, commands + 2);
  }

  /** Ends the input, waits for the program and returns its report. Closing again returns the same report. */
  async close() {
    if (!this.#isClosing) {
      this.#write();
      this.#isClosing = true;
      this.#process.stdin.end();
      this.#ref();
    }
    await this.#end;
    if (this.#report === null) this.#throwExited();
    return this.#report;
  }

  /** Kills the program without waiting for replies. */
  async stop() {
    this.#isStopped = true;
    this.#process.kill("SIGKILL");
    this.#ref();
    await this.#end;
  }

  #append(command, expected) {
    const line = command.includes("\n") ? stripLineEnd(command) : command;
    if (this.#hasEnded || this.#isClosing) this.#throwExited();
    if (this.#sent === this.#answered) this.#ref();
    this.#expected.push(expected);
    this.#lines.push(`${line}\n`);
    this.#sent += 1;
  }

  #write() {
    if (this.#lines.length === 0 || this.#hasEnded) return;
    const text = this.#lines.join("");
    this.#lines.length = 0;
    this.#written.push(text);
    this.#process.stdin.write(text);
  }

  #schedule() {
    if (this.#isScheduled) return;
    this.#isScheduled = true;
    setImmediate(() => {
      this.#isScheduled = false;
      if (!this.#isClosing) this.#write();
    });
  }

  async #waitFor(answered) {
    this.#write();
    if (this.#answered < answered && !this.#hasEnded) {
      await new Promise((resolve) => this.#waiting.push({ answered, resolve }));
    }
    if (this.#answered < answered) this.#throwExited();
  }

  // Node may exit while the program is idle: its handles are referenced only while a reply is pending.
  #unref() {
    for (const it of this.#handles()) it.unref();
  }

  #ref() {
    for (const it of this.#handles()) it.ref();
  }

  #handles() {
    const { stdin, stdout, stderr } = this.#process;
    // The streams are missing if the program could not be started.
    return [this.#process, stdin, stdout, stderr].filter((it) => typeof it?.ref === "function");
  }

  #listen(resolve) {
    const { stdin, stdout, stderr } = this.#process;
    // A write error means that the program has exited, which is handled when the process closes.
    stdin.on("error", () => {});
    stdout.setEncoding("latin1").on("data", (chunk) => this.#readReplies(chunk));
    stderr.setEncoding("utf8").on("data", (chunk) => this.#readStderr(chunk));
    this.#process.on("error", (error) => {
      this.#startError = error;
      this.#finish(null, resolve);
    });
    this.#process.on("close", (code, signal) => this.#finish(code ?? signal, resolve));
    this.#unref();
  }

  #readReplies(chunk) {
    const replies = (this.#partialLine + chunk).split("\n");
    this.#partialLine = replies.pop();
    const count = Math.min(replies.length, this.#expected.length);
    for (let at = 0; at < count; at += 1) {
      if (replies[at] !== this.#expected[at]) this.#acceptReply(this.#answered + at, this.#expected[at], replies[at]);
    }
    this.#closingLines.push(...replies.slice(count));
    this.#expected.splice(0, count);
    this.#answered += count;
    if (this.#sent === this.#answered && !this.#isClosing && !this.#isStopped) this.#unref();
    this.#resolveWaiting();
  }

  #acceptReply(command, expected, reply) {
    if (typeof expected === "function") expected(reply);
    else if (this.unexpected === null) this.unexpected = { command, reply };
  }

  #resolveWaiting() {
    if (this.#waiting.length === 0) return;
    const isReady = (it) => it.answered <= this.#answered || this.#hasEnded;
    for (const it of this.#waiting.filter(isReady)) it.resolve();
    this.#waiting = this.#waiting.filter((it) => !isReady(it));
  }

  /** Keeps the end of standard error. Progress of a build, before the first reply, is passed on. */
  #readStderr(chunk) {
    this.#stderr = (this.#stderr + chunk).slice(-STDERR_BYTES);
    if (this.#answered === 0 && /^(building|proving|proved)/.test(chunk)) process.stderr.write(chunk);
  }

  #finish(status, resolve) {
    if (this.#hasEnded) return;
    this.#hasEnded = true;
    const isComplete = programs.COMPLETE.includes(status) && this.#closingLines.length === 2;
    if (isComplete) this.#report = JSON.parse(this.#closingLines[1]);
    this.status = status;
    for (const it of this.#expected.filter((it) => typeof it === "function")) it(undefined);
    this.#resolveWaiting();
    resolve();
  }

  #throwExited() {
    if (this.#isClosing && (this.#report !== null || !this.#hasEnded)) {
      throw new MonitorExited("the monitor was closed and accepts no more commands");
    }
    if (this.#startError !== null) {
      throw new MonitorExited(`${this.program} could not be started: ${this.#startError.message}`);
    }
    throw new MonitorExited(programs.describeExit(this.program, this.status, this.#stderr, this.history()));
  }
}

function firstLines(text, count) {
  let end = 0;
  for (let line = 0; line < count && end < text.length; line += 1) end = text.indexOf("\n", end) + 1;
  return text.slice(0, end);
}

/** Returns the line without its end. Throws if the text has more than one line. */
function stripLineEnd(text) {
  const line = text.endsWith("\n") ? text.slice(0, -1) : text;
  if (line.includes("\n")) {
    throw new TypeError(`${JSON.stringify(text)} is more than one line: send each command by itself`);
  }
  return line;
}
