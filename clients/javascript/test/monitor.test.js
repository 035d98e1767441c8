// The program behind a pipe: replies, windows, and programs that exit.
import assert from "node:assert/strict";
import { spawnSync } from "node:child_process";
import * as files from "node:fs";
import { tmpdir } from "node:os";
import { join } from "node:path";
import { after, test } from "node:test";
import { fileURLToPath, pathToFileURL } from "node:url";
import * as yehatu from "../index.js";
import { Monitor, MonitorExited } from "../index.js";
import { Check, checkText, find } from "../src/program.js";

const { cpSync, mkdirSync, mkdtempSync, realpathSync, renameSync, rmSync, symlinkSync, writeFileSync } = files;
const folder = realpathSync(mkdtempSync(join(tmpdir(), "yehatu_")));
after(() => rmSync(folder, { recursive: true }));
let scripts = 0;

/** Returns the path of a shell script with these lines. */
function script(...lines) {
  scripts += 1;
  const path = join(folder, `program${scripts}`);
  writeFileSync(path, ["#!/bin/sh", ...lines, ""].join("\n"), { mode: 0o755 });
  return path;
}

const hasExited = (message) => (fault) => fault instanceof MonitorExited && message.test(fault.message);

test("each line has its reply", async () => {
  const monitor = new Monitor("counter", ["a", "b"]);
  assert.equal(await monitor.tell("a inc"), "ok 0");
  assert.equal(await monitor.tell("b got 0"), "got 0");
  assert.equal(await monitor.tell("b got 0"), "refused already-seen");
  assert.equal(await monitor.verdict(), "yes 1");
  const report = { kind: "counter", verdict: "yes", labels: 1, calls: 4, refused: 1 };
  assert.deepEqual(await monitor.close(), report);
  assert.deepEqual(await monitor.close(), report);
});

test("a command is one line, with or without its end", async () => {
  const monitor = new Monitor("counter", ["a"]);
  assert.equal(await monitor.tell("a inc\n"), "ok 0");
  for (const two of ["a inc\na inc", "a inc\n\n"]) {
    assert.throws(() => monitor.post(two, "ok 1"), /more than one line/);
  }
  assert.equal(await monitor.tell("a inc"), "ok 1");
  assert.equal((await monitor.close()).labels, 2);
});

test("the report has the violation", async () => {
  const monitor = new Monitor("counter", ["a"]);
  assert.equal(await monitor.tell("a read 1"), "no 0 query");
  const summary = { kind: "counter", verdict: "no", labels: 1, calls: 1, refused: 0 };
  const report = { ...summary, label: 0, cause: "query", final: true };
  assert.deepEqual(await monitor.close(), report);
});

test("lines in flight keep their order", async () => {
  const monitor = new Monitor("counter", ["a"], { window: 7 });
  for (let number = 0; number < 1000; number += 1) await monitor.post("a inc", `ok ${number}`);
  assert.equal(await monitor.tell("a read 1000"), "ok 1000");
  assert.equal(monitor.unexpected, null);
  assert.equal((await monitor.close()).labels, 1001);
});

test("many callers report to one monitor", async () => {
  const monitor = new Monitor("counter", ["a"]);
  const replies = await Promise.all(Array.from({ length: 400 }, () => monitor.tell("a inc")));
  assert.deepEqual(replies, Array.from({ length: 400 }, (_, number) => `ok ${number}`));
  await monitor.close();
});

test("the first unexpected reply is recorded", async () => {
  const monitor = new Monitor("counter", ["a"]);
  for (const [number, read] of [0, 5, 6].entries()) monitor.post(`a read ${read}`, `ok ${number}`);
  await monitor.settle();
  assert.deepEqual(monitor.unexpected, { command: 1, reply: "no 1 query" });
  assert.equal(monitor.history(2), "RAH 2 counter\nreplicas a\na read 0\na read 5\n");
  await monitor.close();
});

test("a partial batch is written", async () => {
  const monitor = new Monitor("counter", ["a"]);
  monitor.post("a read 1", "ok 0");
  for (let turn = 0; turn < 1000 && monitor.unexpected === null; turn += 1) {
    await new Promise((resolve) => setTimeout(resolve, 10));
  }
  assert.deepEqual(monitor.unexpected, { command: 0, reply: "no 0 query" });
  await monitor.close();
});

test("a missing program is reported", () => {
  const create = () => new Monitor("counter", ["a"], { program: "/nowhere/program" });
  assert.throws(create, hasExited(/program is not a program/));
});

test("a program that exits immediately is reported", async () => {
  const monitor = new Monitor("counter", ["a"], { program: script("echo out of luck >&2", "exit 7") });
  await assert.rejects(monitor.tell("a inc"), hasExited(/status 7; its standard error is "out of luck"/));
  await assert.rejects(monitor.close(), hasExited(/out of luck/));
});

test("a program that exits with lines in flight is reported", async () => {
  const program = script("read a; read b; read c; echo ok 0; echo tired >&2; exit 2");
  const monitor = new Monitor("counter", ["a"], { program });
  const work = async () => {
    for (let number = 0; number < 100_000; number += 1) await monitor.post("a inc", `ok ${number}`);
    await monitor.settle();
  };
  await assert.rejects(work(), hasExited(/status 2; its standard error is "tired"/));
});

test("each waiting caller gets the error", async () => {
  const monitor = new Monitor("counter", ["a"], { program: script("read a; sleep 0.1; exit 2") });
  const results = await Promise.allSettled([monitor.tell("a inc"), monitor.tell("a inc"), monitor.settle()]);
  assert.deepEqual(results.map((it) => it.reason?.name), Array(3).fill("MonitorExited"));
});

test("as many commands as the window are in flight", { timeout: 60_000 }, async () => {
  for (const [window, least] of [[0, 1], [1, 1], [3, 3]]) {
    // It replies to the first command once the window is full.
    const program = script(`${"read line; ".repeat(2 + least)}echo other; exec cat >&2`);
    const monitor = new Monitor("counter", ["a"], { program, window });
    const seen = [];
    for (let number = 0; number < least; number += 1) {
      seen.push(monitor.unexpected);
      // A call that waits too early never returns.
      await monitor.post("a inc", "ok 0");
    }
    assert.deepEqual([...seen, monitor.unexpected], [...Array(least).fill(null), { command: 0, reply: "other" }]);
    await monitor.stop();
  }
});

test("the end of standard error is kept", async () => {
  const monitor = new Monitor("counter", ["a"], { program: script("seq 100000 105000 >&2; exit 7") });
  const { message } = await monitor.tell("a inc").catch((fault) => fault);
  // The last 10,000 bytes, in lines of 7.
  const lastLines = Array.from({ length: 1428 }, (_, at) => at + 103_573).join("\n");
  assert.ok(message.endsWith(`status 7; its standard error is ${JSON.stringify(`572\n${lastLines}`)}`), message);
});

test("a syntax fault is reported", async () => {
  await assert.rejects(new Monitor("counter", ["a"]).tell("a increments"), hasExited(/line 3: syntax/));
});

test("a syntax fault is explained", async () => {
  const explains = "if [ $1 = explain ]; then cat; echo is no command; exit 2; fi";
  for (const fault of ["syntax", "truncated", "too long", "full"]) {
    const program = script(explains, `read one; read two; read three; echo line 3: ${fault} >&2; exit 2`);
    const { message } = await new Monitor("counter", ["a"], { program }).tell("a increments").catch((it) => it);
    const [description, page] = [message.slice(0, message.indexOf("\n\n")), message.slice(message.indexOf("\n\n") + 2)];
    assert.ok(description.endsWith(`exited with status 2; its standard error is "line 3: ${fault}"`), message);
    assert.equal(page, "RAH 2 counter\nreplicas a\na increments\nis no command");
  }
});

test("the former names of exceptions", () => {
  assert.equal(yehatu.MonitorGone, MonitorExited);
  assert.equal(yehatu.CannotTell, yehatu.NotRepresentable);
  assert.equal(yehatu.MonitorWent, undefined);
});

test("a stopped monitor rejects commands", async () => {
  const monitor = new Monitor("counter", ["a"]);
  await monitor.stop();
  assert.throws(() => monitor.post("a inc", "ok 0"), MonitorExited);
});

test("a closed monitor rejects commands", async () => {
  const monitor = new Monitor("counter", ["a"]);
  await monitor.close();
  assert.throws(() => monitor.post("a inc", "ok 0"), hasExited(/was closed/));
});

test("a monitor that is left open does not keep the process from ending", () => {
  const code = `
    import { Monitor } from ${JSON.stringify(new URL("../index.js", import.meta.url).href)};
    const monitor = new Monitor("counter", ["a"]);
    console.log(await monitor.tell("a inc"));
    monitor.post("a inc", "ok 1");
    await monitor.settle();`;
  const options = ["--input-type=module", "--eval", code];
  const ran = spawnSync(process.execPath, options, { encoding: "utf8", timeout: 20_000 });
  assert.deepEqual([ran.stdout, ran.stderr, ran.status], ["ok 0\n", "", 0]);
});

test("the environment names the program", async () => {
  const before = process.env.RA_MONITOR;
  process.env.RA_MONITOR = script("echo of the environment >&2; exit 3");
  const monitor = new Monitor("counter", ["a"]);
  if (before === undefined) delete process.env.RA_MONITOR;
  else process.env.RA_MONITOR = before;
  await assert.rejects(monitor.tell("a inc"), hasExited(/of the environment/));
});

test("a run without its end line is no pass", async () => {
  // No pipe holds this text, so a program that does not read it breaks the pipe.
  const text = `RAH 2 counter\nreplicas a\n${"a inc\n".repeat(100_000)}`;
  const fault = hasExited(/its standard error is "broken"/);
  for (const lines of ["echo broken >&2; exit 1", "cat > /dev/null; echo ok 0; echo broken >&2; exit 0"]) {
    const program = script(lines);
    assert.throws(() => checkText(program, text), fault);
    await assert.rejects(new Check(program, text).wait(), fault);
  }
});

test("the default program is that of the repository", () => {
  const top = join(folder, "repository");
  const client = join(top, "clients", "javascript");
  cpSync(fileURLToPath(new URL("..", import.meta.url)), client, { recursive: true });
  const built = join(top, "crates", "ra_check_cli", "out");
  mkdirSync(built, { recursive: true });
  symlinkSync(realpathSync(find()), join(built, "ra_check_cli"));
  // By this file the client knows that it is in a clone.
  mkdirSync(join(top, "tools"));
  writeFileSync(join(top, "tools", "build"), "");
  // It prints a line at each start.
  renameSync(script("echo started >&2", `exec "${built}/ra_check_cli" "$@"`), join(top, "ra_monitor"));
  const code = `
    import { Monitor, checkRandom } from ${JSON.stringify(pathToFileURL(join(client, "index.js")).href)};
    class Counter {
      number = 0;
      increment() { this.number += 1; return 1; }
      decrement() { this.number -= 1; return -1; }
      receive(by) { this.number += by; }
      read() { return this.number; }
    }
    const { verdict } = await new Monitor("counter", ["a"]).close();
    const { runs } = await checkRandom(() => new Counter(), "counter", 3, 30, 5);
    console.log(verdict, runs);`;
  const { RA_MONITOR: _, ...env } = process.env;
  const ran = spawnSync(process.execPath, ["--input-type=module", "--eval", code], { encoding: "utf8", env });
  assert.deepEqual([ran.stdout, ran.stderr], ["yes 5\n", "started\n"]);
});
