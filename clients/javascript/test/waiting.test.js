// No call waits longer than the program takes to reply.
//
// A call is timed alternately with a plain run of the same program, so that a busy machine slows both.
import assert from "node:assert/strict";
import { spawnSync } from "node:child_process";
import { mkdtempSync, rmSync, writeFileSync } from "node:fs";
import { tmpdir } from "node:os";
import { join } from "node:path";
import { test } from "node:test";
import { Monitor, MonitorExited } from "../index.js";
import { checkText, findForManyRuns } from "../src/program.js";

const ROUNDS = 5;
// A client's run takes about as long as a plain run; one that sleeps for two seconds, some hundred times.
const MOST_TIMES = 100;
// The longest time to wait for a reply, in milliseconds.
const TIMEOUT = 10_000;
const TEXT = "RAH 2 counter\nreplicas a\na read 1\n";

/** Returns the duration of this call in milliseconds. */
async function milliseconds(act) {
  const before = performance.now();
  await act();
  return performance.now() - before;
}

/** Compares the fastest of several runs of each. */
async function takesAsLong(act, plain) {
  const runs = [];
  const plainRuns = [];
  for (let round = 0; round < ROUNDS; round += 1) {
    runs.push(await milliseconds(act));
    plainRuns.push(await milliseconds(plain));
  }
  const [fastest, fastestPlain] = [runs, plainRuns].map((it) => Math.min(...it));
  const message = `${fastest} milliseconds of the client, and ${fastestPlain} of a plain run`;
  assert.ok(fastest < MOST_TIMES * fastestPlain, message);
}

/** Compares a monitor's whole life with the program's run on one command. */
function takesAsLongAsACheck(use) {
  const program = findForManyRuns();
  const act = async () => {
    const monitor = new Monitor("counter", ["a"], { program });
    try {
      await use(monitor);
    } finally {
      await monitor.stop();
    }
  };
  return takesAsLong(act, () => checkText(program, TEXT));
}

test("a line that no other line follows is written soon", () =>
  takesAsLongAsACheck(async (monitor) => {
    monitor.post("a read 1", "ok 0");
    const last = performance.now() + TIMEOUT;
    while (monitor.unexpected === null) {
      assert.ok(performance.now() < last, "there is no reply");
      await new Promise((resolve) => setImmediate(resolve));
    }
  }));

test("a call waits for its reply alone", () => takesAsLongAsACheck((monitor) => monitor.tell("a inc")));

test("settling waits for the replies alone", () =>
  takesAsLongAsACheck(async (monitor) => {
    monitor.post("a inc", "ok 0");
    await monitor.settle();
  }));

test("closing waits for the report alone", () =>
  takesAsLongAsACheck(async (monitor) => {
    monitor.post("a inc", "ok 0");
    assert.equal((await monitor.close()).labels, 1);
  }));

test("a program that exited is reported immediately", async () => {
  const folder = mkdtempSync(join(tmpdir(), "yehatu_"));
  const program = join(folder, "program");
  writeFileSync(program, "#!/bin/sh\necho out of luck >&2\nexit 7\n", { mode: 0o755 });
  const isGone = (fault) => fault instanceof MonitorExited && fault.message.includes("out of luck");
  const act = async () => {
    const monitor = new Monitor("counter", ["a"], { program });
    await assert.rejects(monitor.tell("a inc"), isGone);
    await assert.rejects(monitor.close(), isGone);
  };
  try {
    await takesAsLong(act, () => spawnSync(program, { encoding: "utf8" }));
  } finally {
    rmSync(folder, { recursive: true });
  }
});
