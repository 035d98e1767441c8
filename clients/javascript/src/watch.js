// The command `watch`: passes a history to the monitor as it comes, and shows its status.
import { spawn } from "node:child_process";
import { closeSync, createReadStream, openSync } from "node:fs";
import { MonitorExited } from "./errors.js";
import { findForManyRuns } from "./program.js";
import { Counts, HEADER_LINES, Unanswered } from "./watch_counts.js";
import { Display, describeCounts, describeNotice, describeVerdict } from "./watch_display.js";
import { showEnd } from "./watch_end.js";
import { Text } from "./watch_text.js";

// How often a growing file is read again at its end, in milliseconds.
const FOLLOW_INTERVAL = 50;
// The largest part of standard error that is kept, counted from the end.
const STDERR_LENGTH = 1 << 16;
const SIGNALS = ["SIGINT", "SIGTERM"];

/**
 * Watches a history until it ends, and returns the exit status of its check. `path` is the file with the history, and
 * without it standard input is read; `every` is the number of seconds between two lines of the status.
 */
export async function watch(options, program) {
  // A first build is in the foreground, where Ctrl-C ends it.
  const found = findForManyRuns(program);
  const display = new Display(process.stderr);
  const text = new Text();
  try {
    const outcome = await new Watch(found, text, options, display).run();
    return showEnd(found, outcome, text, options, display);
  } finally {
    text.close();
  }
}

/**
 * A history on its way from the source to the monitor. The source is read only while no line waits for the monitor, so
 * that a source is as slow as it would be in front of the monitor itself.
 */
class Watch {
  #program;
  #text;
  #options;
  #display;
  #process;
  #source;
  #file;
  #offset = 0;
  #counts = new Counts();
  #unanswered = new Unanswered();
  #header = [];
  #partialReply = "";
  #endLine = "";
  #stderr = "";
  #isReading = true;
  #start = performance.now();
  #shown = { at: performance.now(), reports: 0 };
  #end;

  constructor(program, text, options, display) {
    this.#program = program;
    this.#text = text;
    this.#options = options;
    this.#display = display;
  }

  /** Runs until the monitor has ended, or the first violation if the options say so. Returns the outcome. */
  async run() {
    if (this.#options.path !== undefined) this.#file = openSync(this.#options.path, "r");
    const interrupt = (signal) => {
      // The same signal again ends the process at once.
      process.off(signal, interrupt);
      this.#stopReading();
    };
    const timer = setInterval(() => this.#show(), this.#options.every * 1000);
    try {
      SIGNALS.forEach((it) => process.on(it, interrupt));
      return await new Promise((resolve, reject) => {
        this.#end = { resolve, reject };
        this.#begin();
      });
    } finally {
      clearInterval(timer);
      SIGNALS.forEach((it) => process.off(it, interrupt));
      this.#isReading = false;
      this.#display.clear();
      this.#source?.destroy();
      if (this.#file !== undefined) closeSync(this.#file);
      this.#process?.kill("SIGKILL");
    }
  }

  #begin() {
    // In a session of its own, since Ctrl-C is to end the source and not the monitor.
    this.#process = spawn(this.#program, ["check"], { detached: true });
    const { stdin, stdout, stderr } = this.#process;
    this.#process.on("error", (error) => {
      this.#end.reject(new MonitorExited(`${this.#program} could not be started: ${error.message}`));
    });
    this.#process.on("close", (code, signal) => this.#finish(code ?? signal));
    // A write error means that the monitor has ended, and its standard error says why.
    stdin?.on("error", () => this.#stopReading()).on("drain", () => this.#isReading && this.#source.resume());
    stdout?.setEncoding("latin1").on("data", (chunk) => this.#guard(() => this.#readReplies(chunk)));
    stderr?.setEncoding("latin1").on("data", (chunk) => this.#readStderr(chunk));
    process.stdout.on("error", this.#end.reject);
    this.#openSource();
  }

  /** Ends the run with what the function throws. */
  #guard(call) {
    try {
      call();
    } catch (error) {
      this.#end.reject(error);
    }
  }

  #openSource() {
    // Of an open file, so that a growing one is the same after a rename.
    const open = () => createReadStream(`/proc/self/fd/${this.#file}`, { start: this.#offset });
    this.#source = this.#file === undefined ? process.stdin : open();
    this.#source.on("data", (chunk) => this.#guard(() => this.#send(this.#text.add(chunk), chunk.length)));
    this.#source.on("end", () => this.#guard(() => this.#endSource()));
    this.#source.on("error", this.#end.reject);
  }

  #endSource() {
    if (!this.#isReading) return;
    if (this.#options.follow) {
      setTimeout(() => this.#isReading && this.#openSource(), FOLLOW_INTERVAL);
    } else {
      this.#send(this.#text.end(), 0);
      this.#stopReading();
    }
  }

  /** Ends the monitor's input once all lines are written. An unfinished line is dropped. */
  #stopReading() {
    this.#isReading = false;
    this.#source?.pause();
    this.#process?.stdin?.end();
  }

  /** Passes these lines on, which came with the given number of bytes of the source. */
  #send(lines, read) {
    this.#offset += read;
    if (lines.length === 0 || !this.#isReading) return;
    const commands = lines.toString("latin1").split("\n");
    if (commands.at(-1) === "") commands.pop();
    while (this.#header.length < HEADER_LINES && commands.length > 0) {
      this.#header.push(commands.shift());
      if (this.#header.length === HEADER_LINES) this.#counts.begin(this.#header[1]);
    }
    this.#unanswered.append(commands);
    if (!this.#process.stdin.write(lines)) this.#source.pause();
  }

  #readReplies(chunk) {
    if (this.#hasToStop()) return;
    const replies = (this.#partialReply + chunk).split("\n");
    this.#partialReply = replies.pop();
    if (replies.at(-1)?.startsWith("end ")) this.#endLine = replies.pop();
    if (this.#options.replies && replies.length > 0) {
      this.#display.clear();
      process.stdout.write(`${replies.join("\n")}\n`);
    }
    const commands = this.#unanswered.take(replies.length);
    for (const it of this.#counts.add(commands, replies)) this.#display.print(describeNotice(it));
    if (this.#hasToStop()) this.#finish(1);
  }

  #readStderr(chunk) {
    this.#stderr = (this.#stderr + chunk).slice(-STDERR_LENGTH);
  }

  #hasToStop() {
    return Boolean(this.#options.stop) && this.#counts.violation !== null;
  }

  #finish(status) {
    const ended = { status, end: this.#endLine, stderr: this.#stderr };
    const outcome = { counts: this.#counts, seconds: this.#seconds(), ...ended };
    if (this.#hasToStop()) {
      const { line, reply } = this.#counts.violation;
      this.#text.cut(line);
      Object.assign(outcome, { status: 1, end: `end ${reply}`, stderr: "" });
    }
    this.#end.resolve(outcome);
  }

  #seconds() {
    return (performance.now() - this.#start) / 1000;
  }

  #show() {
    const now = performance.now();
    const rate = ((this.#counts.reports - this.#shown.reports) * 1000) / (now - this.#shown.at);
    this.#shown = { at: now, reports: this.#counts.reports };
    this.#display.show(describeVerdict(this.#counts), describeCounts(this.#counts, this.#seconds(), rate));
  }
}
