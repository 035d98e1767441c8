#!/usr/bin/env node
// What a report costs from Node, in microseconds: the fastest of fifty turns, by the clock and of this process.
//
//     RA_MONITOR=crates/ra_check_cli/out/ra_check_cli bench/report_cost.mjs
import { Monitor, Recorder } from "../clients/javascript/index.js";

const ROUNDS = 1_000;
const TURNS = 50;

// One update of each kind, as a replica with a clock would report it; a list is kept short by a removal.
const updates = {
  counter: (recorder, number) => recorder.increment("ann", { message: number }),
  register: (recorder, number) =>
    recorder.write("ann", `value ${number}`, [number + 1, "ann"], { message: number }),
  lwwset: (recorder, number) =>
    recorder.add("ann", `element ${number % 4}`, { stamp: [number + 1, "ann"], message: number }),
  orset: (recorder, number) =>
    recorder.add("ann", `element ${number % 4}`, { identifier: `ann ${number}`, message: number }),
  rga: (recorder, number) =>
    recorder.insertAfter("ann", null, `element ${number}`, [number + 1, "ann"], { message: number }),
};
const reads = {
  counter: (number) => number + 1,
  register: (number) => `value ${number}`,
  lwwset: (number) => Array.from({ length: Math.min(number + 1, 4) }, (_, it) => `element ${it}`),
};

/** An update, its delivery, and another step: a report each, and no replica. */
async function rounds(kind) {
  const recorder = new Recorder(kind, ["ann", "bob"]);
  const began = started();
  for (let number = 0; number < ROUNDS; number += 1) {
    await updates[kind](recorder, number);
    await recorder.deliver("bob", number);
    if (kind in reads) {
      await recorder.read("bob", reads[kind](number));
    } else {
      const last = `element ${kind === "rga" ? number : number % 4}`;
      await recorder.remove("ann", last, { message: -1 - number });
      await recorder.deliver("bob", -1 - number);
    }
  }
  await recorder.settle();
  const took = since(began);
  const { calls } = await recorder.close();
  return took.map((it) => it / calls);
}

/** A line of the monitor, with its reply waited for or not. */
async function told(waits) {
  const monitor = new Monitor("counter", ["ann"]);
  const began = started();
  for (let number = 0; number < ROUNDS; number += 1) {
    await (waits ? monitor.tell("ann inc") : monitor.post("ann inc", `ok ${number}`));
  }
  await monitor.settle();
  const took = since(began);
  await monitor.close();
  return took.map((it) => it / ROUNDS);
}

const started = () => [performance.now(), process.cpuUsage()];

function since([clock, before]) {
  const { user, system } = process.cpuUsage(before);
  return [(performance.now() - clock) * 1_000, user + system];
}

async function row(name, turn) {
  const turns = [];
  for (let count = 0; count < TURNS; count += 1) turns.push(await turn());
  // Others on the machine slow the rest down.
  const [clock, used] = turns.sort(([one], [other]) => one - other)[0];
  console.log(`| ${name} | ${clock.toFixed(1)} | ${used.toFixed(1)} |`);
}

for (const kind of Object.keys(updates)) await row(`Recorder, ${kind}`, () => rounds(kind));
await row("Monitor.post", () => told(false));
await row("Monitor.tell", () => told(true));
