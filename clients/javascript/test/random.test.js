// Random runs: correct replicas pass, and each seeded bug is found and shrunk.
import assert from "node:assert/strict";
import { spawnSync } from "node:child_process";
import { readFileSync } from "node:fs";
import { test } from "node:test";
import { NotRepresentable, NotLinearizable, Refused, ReplicaRaised, checkRandom } from "../index.js";
import { Planner } from "../src/plans.js";
import { makeTraits } from "../src/profile.js";
import { checkText, findForManyRuns } from "../src/program.js";
import { UNOBSERVABLE, OBSERVABLE } from "./planted.js";
import { Counter, LwwSet, CORRECT, Register, Rga, forking } from "./replicas.js";

// The number of runs of correct replicas. The gate runs fewer than the thousand of the README.
const RUNS = Number(process.env.YEHATU_RUNS ?? 60);
// The largest number of runs until a bug is found, and the largest number of commands of its history.
const FOUND_WITHIN = 200;
const LONGEST_HISTORY = 12;
const create = (Replica) => (name) => new Replica(name);
const plan = (replicas, seed, options) =>
  new Planner("rga", replicas, 30, seed, makeTraits(["insertAfter", "remove"], options)).plan();

/** Tests replicas in random runs, and returns the number of those that passed. */
const countRuns = async (...parameters) => (await checkRandom(...parameters)).runs;

/** A counter with merged states: for each replica the largest numbers of its increments and decrements. */
class MergedCounter {
  steps = {};

  constructor(name) {
    this.name = name;
  }

  increment() {
    this.steps[`+${this.name}`] = (this.steps[`+${this.name}`] ?? 0) + 1;
  }

  async decrement() {
    this.steps[`-${this.name}`] = (this.steps[`-${this.name}`] ?? 0) + 1;
  }

  async state() {
    return { ...this.steps };
  }

  merge(state) {
    for (const [key, number] of Object.entries(state)) this.steps[key] = Math.max(this.steps[key] ?? 0, number);
  }

  read() {
    return Object.entries(this.steps).reduce((sum, [key, number]) => sum + (key[0] === "+" ? number : -number), 0);
  }
}

/** Adds the numbers in a merge, so that common updates count twice. */
class SummingCounter extends MergedCounter {
  merge(state) {
    for (const [key, number] of Object.entries(state)) this.steps[key] = (this.steps[key] ?? 0) + number;
  }
}

/** The same bug in a counter whose methods take an amount. */
class SummingAmounts extends SummingCounter {
  increment(by = 1) {
    this.steps[`+${this.name}`] = (this.steps[`+${this.name}`] ?? 0) + by;
  }

  async decrement(by = 1) {
    this.steps[`-${this.name}`] = (this.steps[`-${this.name}`] ?? 0) + by;
  }
}

/** Overwrites its state with one that has nothing new. */
class ForgetfulCounter extends MergedCounter {
  merge(state) {
    const isOld = Object.entries(state).every(([key, number]) => number <= (this.steps[key] ?? 0));
    if (isOld) this.steps = { ...state };
    super.merge(state);
  }
}

/** Throws an error at the third element behind one anchor. */
class RaisingRga extends Rga {
  insert(message) {
    if (this.nodes.get(message.anchor).children.length === 2) throw new RangeError("too many children");
    super.insert(message);
  }
}

/** Does not advance its clock. */
class StandingClock extends Rga {
  tick() {
    return [1, this.name];
  }
}

/** Forks an empty replica. */
class ForksWithNothing extends Counter {
  fork(name) {
    return new ForksWithNothing(name);
  }
}

/** Forks nothing. */
class ForksIntoNothing extends Counter {
  fork() {}
}

/** Forks a replica that shares the state instead of copying it. */
class ForksShareTheirState extends LwwSet {
  fork(name) {
    return Object.assign(new ForksShareTheirState(name), { ...this, name });
  }
}

/** Forks a replica whose clock starts at 0. */
class ForksForgetTheClock extends Register {
  fork(name) {
    return Object.assign(new ForksForgetTheClock(name), { ...this, name, clock: 0 });
  }
}

/** Forks a replica that keeps the name of its source. */
class ForksKeepTheName extends Register {
  fork() {
    return Object.assign(new ForksKeepTheName(), this);
  }
}

class ForksThrow extends Counter {
  fork(name) {
    throw new RangeError(name);
  }
}

/** Requires that the history is short, that the message quotes it, and that checking it again fails. */
function requireSmallFailure(failed) {
  assert.ok(failed instanceof NotLinearizable, failed);
  const text = readFileSync(failed.history, "utf8");
  assert.ok(text.split("\n").length - 3 <= LONGEST_HISTORY, text);
  const shown = failed.message.split("\n");
  for (const line of text.trimEnd().split("\n")) {
    assert.ok(shown.some((it) => it === `    ${line}` || it.startsWith(`    ${line}  `)), line);
  }
  assert.ok(failed.message.includes("seed "));
  assert.equal(checkText(findForManyRuns(), text).status, 1);
}

/** Runs this for each bug in each kind. */
async function forEachBug(t, bugs, act) {
  for (const [bug, kinds] of Object.entries(bugs)) {
    for (const [kind, Replica] of Object.entries(kinds)) await t.test(`${kind}, ${bug}`, () => act(kind, Replica));
  }
}

test("all runs of each kind pass", async (t) => {
  for (const [kind, Replica] of Object.entries(CORRECT)) {
    await t.test(kind, async () => assert.equal(await countRuns(create(Replica), kind, 3, 30, RUNS), RUNS));
  }
});

// Some of the methods are asynchronous.
test("states that are merged", async () => {
  assert.equal(await countRuns(create(MergedCounter), "counter", 3, 30, RUNS), RUNS);
});

test("replicas with names of their own", async () => {
  const names = ["Ann", "Bob", "Carol", "Dave"];
  assert.equal(await countRuns(create(CORRECT.register), "register", names, 20, [7, 9]), 2);
});

test("a seed determines the plan", () => {
  const [one, same, other] = [5, 5, 6].map((seed) => plan(3, seed));
  assert.deepEqual(one, same);
  assert.notDeepEqual(one, other);
});

test("all runs of each kind with joins pass", async (t) => {
  for (const [kind, Replica] of Object.entries(CORRECT)) {
    await t.test(kind, async () => assert.equal(await countRuns(create(forking(Replica)), kind, 4, 30, RUNS), RUNS));
  }
});

test("states that are merged, and replicas that join", async () => {
  assert.equal(await countRuns(create(forking(MergedCounter)), "counter", 4, 30, RUNS), RUNS);
});

test("many replicas", async () => {
  assert.equal(await countRuns(create(forking(Rga)), "rga", 64, 40, 3), 3);
  assert.equal(await countRuns(create(Rga), "rga", 20, 40, 3), 3);
});

test("some replicas are initial, and others join", () => {
  const joins = Array.from({ length: 20 }, (_, seed) =>
    plan(4, seed, { forks: true }).filter((it) => it.action === "join"),
  );
  assert.ok(joins.flat().every((it) => it.number < it.replica));
  const counts = joins.map((it) => it.length);
  assert.deepEqual([Math.min(...counts), Math.max(...counts)], [0, 3]);
});

const FORKS = { counter: ForksWithNothing, lwwset: ForksShareTheirState, register: ForksForgetTheClock };
test("bugs of a copy are found and shrunk", async (t) => {
  for (const [kind, Bug] of Object.entries(FORKS)) {
    await t.test(Bug.name, async () => {
      const failed = await checkRandom(create(Bug), kind, 3, 30, FOUND_WITHIN).catch((fault) => fault);
      requireSmallFailure(failed);
      assert.match(failed.message, /joins with a copy of/);
    });
  }
});

test("a failure that needs no join is shrunk to none", async () => {
  const Bug = forking(OBSERVABLE["children stand in rising order"].rga);
  const failed = await checkRandom(create(Bug), "rga", 3, 30, FOUND_WITHIN).catch((fault) => fault);
  requireSmallFailure(failed);
  assert.doesNotMatch(failed.message, /joins with a copy of/);
});

test("a copy that keeps the name of its source is rejected", async () => {
  const expected = /names another replica: expected/;
  const isExpected = (fault) => fault instanceof NotRepresentable && expected.test(fault.message);
  await assert.rejects(checkRandom(create(ForksKeepTheName), "register"), isExpected);
});

test("a copy that fails is reported", async () => {
  const failed = await checkRandom(create(ForksThrow), "counter").catch((fault) => fault);
  assert.ok(failed instanceof ReplicaRaised);
  assert.match(failed.operation, /^'a': fork\('([bc])'\) threw RangeError: \1$/);
});

test("each observable bug is found and shrunk", (t) =>
  forEachBug(t, OBSERVABLE, async (kind, Replica) => {
    const failed = await checkRandom(create(Replica), kind, 3, 30, FOUND_WITHIN).catch((fault) => fault);
    // An insertion behind an element that was lost has no place.
    if (failed instanceof ReplicaRaised) assert.ok(kind === "rga" && Replica === OBSERVABLE["a delivery is lost"].rga);
    else requireSmallFailure(failed);
  }));

test("a merge that counts twice", async () => {
  requireSmallFailure(await checkRandom(create(SummingCounter), "counter").catch((fault) => fault));
});

test("a merge that counts twice is shrunk to small amounts", async () => {
  for (let seed = 0; seed < 8; seed += 1) {
    const failed = await checkRandom(create(SummingAmounts), "counter", { seeds: [seed] }).catch((fault) => fault);
    requireSmallFailure(failed);
    const updates = readFileSync(failed.history, "utf8").split("\n").filter((it) => / (inc|dec)$/.test(it));
    assert.equal(updates.length, 1, updates);
  }
});

test("an old state that overwrites", async () => {
  const failed = await checkRandom(create(ForgetfulCounter), "counter", 3, 30, FOUND_WITHIN).catch((fault) => fault);
  requireSmallFailure(failed);
  assert.match(failed.message, /merges the state of/);
});

test("other bugs change no result", (t) =>
  forEachBug(t, UNOBSERVABLE, async (kind, Replica) => {
    assert.equal(await countRuns(create(Replica), kind, 3, 30, RUNS >> 1), RUNS >> 1);
  }));

test("a replica that fails is shrunk too", async () => {
  const failed = await checkRandom(create(RaisingRga), "rga").catch((fault) => fault);
  assert.ok(failed instanceof ReplicaRaised && failed.cause instanceof RangeError);
  assert.match(failed.message, /too many children/);
  assert.match(failed.message, /shrunk from [0-9]+ steps to [345];/);
  assert.match(failed.operation, /^'[abc]': insertAfter/);
});

test("a refused report is shrunk too", async () => {
  const failed = await checkRandom(create(StandingClock), "rga").catch((fault) => fault);
  assert.ok(failed instanceof Refused && failed.cause === "stamp-taken");
  assert.match(failed.message, / steps to 2;/);
});

test("a class that lacks methods is rejected", async () => {
  const lacking = /needs the methods write, read, receive: this one lacks write/;
  await assert.rejects(checkRandom(create(Counter), "register"), lacking);
});

test("a fork that returns nothing is reported", async () => {
  await assert.rejects(checkRandom(create(ForksIntoNothing), "counter"), /fork\('[bc]'\) threw .*returned undefined/);
});

test("an empty list of seeds is rejected", async () => {
  for (const seeds of [0, []]) {
    await assert.rejects(checkRandom(create(Counter), "counter", 3, 30, seeds), /nothing was run/);
  }
});

test("an unknown kind is rejected", async () => {
  await assert.rejects(checkRandom(create(Counter), "bag"), /unknown kind 'bag': expected counter, /);
});

test("long runs report their progress", () => {
  const code = `
    import { checkRandom } from ${JSON.stringify(new URL("../index.js", import.meta.url).href)};
    let now = 0;
    Object.defineProperty(globalThis, "performance", { value: { now: () => (now += 3000) } });
    const replica = () => ({ increment() {}, decrement() {}, receive() {}, read: () => 0 });
    await checkRandom(replica, "counter", 1, 0, 2);`;
  const ran = spawnSync(process.execPath, ["--input-type=module", "--eval", code], { encoding: "utf8" });
  assert.match(ran.stderr, /checkRandom counter: 2 runs passed so far/);
});
