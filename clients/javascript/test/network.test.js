// Networks that lose the order and repeat messages, late states, and restarts: what a type promises is tried.
import assert from "node:assert/strict";
import { test } from "node:test";
import { NotLinearizable, NotRepresentable, ReportFailed, checkRandom, replay } from "../index.js";
import { Driver } from "../src/driver.js";
import { Network } from "../src/network.js";
import { AMOUNTS, BOUNDARIES, MAX_TOTAL, Planner } from "../src/plans.js";
import { makeProfile, makeTraits } from "../src/profile.js";
import { RandomNumbers } from "../src/random_numbers.js";
import { makeStep } from "../src/steps.js";
import { AmountCounter, MergedCounter, PLANTED, RIGHT, saving } from "./network_replicas.js";
import { Counter, LwwSet } from "./replicas.js";

// The number of runs of correct replicas. tests/release runs more.
const RUNS = Number(process.env.YEHATU_RUNS ?? 500);
const FOUND_WITHIN = 200;
const SENTENCES = {
  keeps_one_message: /at work: message \d+ arrived before message \d+, on which it depends/,
  counts_duplicates: /at work: message 1 arrived twice\n/,
  undoes_newer_entries:
    /at work: a state of '[abc]' taken at step (\d+) was merged at step \d+\n.* the state of '[abc]' of step \1\n/s,
  forgets_its_clock: /at work: '[abc]' restarted from its state of step \d+\n/,
  overflows_at_seven_bits: /reads -?12[89]: /,
  "overflows_at_seven_bits with amounts": /reads -?\d+: /,
};
const EVENTS = {
  duplicates: ["duplicate"],
  lateStates: ["snapshot", "merge_snapshot"],
  restarts: ["save", "restart"],
};

const range = (count) => Array.from({ length: count }, (_, number) => number);
const plan = (kind, seed, traits, operations = 30) => new Planner(kind, 3, operations, seed, traits).plan();
/** Returns the steps of plans of this number of seeds. */
const plans = (kind, traits, seeds = 60) => range(seeds).flatMap((seed) => plan(kind, seed, traits));
/** Returns the error of the first run that fails. */
const failureOf = (Replica, kind, options) =>
  checkRandom(Replica, kind, { seeds: FOUND_WITHIN, ...options }).then(
    () => assert.fail("no run fails"),
    (error) => (error instanceof ReportFailed ? error : Promise.reject(error)),
  );
const countRuns = async (...parameters) => (await checkRandom(...parameters)).runs;

test("each bug of a network is found and named", async (t) => {
  for (const [bug, { Replica, kind, options }] of Object.entries(PLANTED)) {
    await t.test(bug, async () => {
      const failed = await failureOf(Replica, kind, options);
      assert.match(failed.message, SENTENCES[bug]);
      await assert.rejects(replay(Replica, failed.steps), failed.constructor);
    });
  }
});

test("no bug of a network is found where the network has no fault", async (t) => {
  for (const bug of ["keeps_one_message", "counts_duplicates", "undoes_newer_entries", "forgets_its_clock"]) {
    await t.test(bug, async () => {
      const { Replica, kind } = PLANTED[bug];
      const lateStates = bug === "undoes_newer_entries" ? false : undefined;
      assert.equal(await countRuns(Replica, kind, { seeds: 40, lateStates, restarts: false }), 40);
    });
  }
});

test("a fault that is not needed is not named", async () => {
  class Bug extends RIGHT["counter in any order"].Replica {
    read() {
      return Math.max(super.read(), 0);
    }
  }
  const failed = await failureOf(Bug, "counter", { delivery: "any", duplicates: true, restarts: true });
  assert.ok(failed instanceof NotLinearizable);
  assert.doesNotMatch(failed.message, /at work/);
});

test("correct replicas raise no false alarm on any network", async (t) => {
  for (const [name, { Replica, kind, options }] of Object.entries(RIGHT)) {
    await t.test(name, async () => {
      assert.equal(await countRuns(Replica, kind, { seeds: RUNS, ...options }), RUNS);
    });
  }
});

test("a saved value and a late state are copied", async () => {
  const loaded = [];
  const merged = [];
  /** Saves its own object. */
  class Live extends MergedCounter {
    save() {
      return this.steps;
    }

    load(saved) {
      this.steps = saved;
      loaded.push(this.read());
    }

    merge(state) {
      merged.push(Object.values(state[1]).reduce((sum, [up, down]) => sum + up - down, 0));
      super.merge(state);
    }
  }
  const steps = [
    makeStep("update", 0, 1, "increment"), makeStep("snapshot", 0, 1), makeStep("update", 0, 2, "increment"),
    makeStep("save", 1), makeStep("merge", 1, 0), makeStep("merge_snapshot", 1, 1), makeStep("restart", 1),
    makeStep("read", 1),
  ];
  const profile = makeProfile({ lateStates: true, restarts: true });
  const make = (name) => new Live(name);
  const driver = new Driver({ make, kind: "counter", replicas: ["a", "b"], profile }, steps);
  assert.equal(await driver.execute(steps), null);
  // The save came before the merges, which are repeated after the restart.
  assert.deepEqual([loaded, merged], [[0], [2, 1, 2, 1]]);
  assert.match(driver.text(), /\nb read 2\n$/);
});

test("a class method may load", async () => {
  class Loaded extends Counter {
    save() {
      return this.number;
    }

    static load(saved) {
      return Object.assign(new Loaded("loaded"), { number: saved });
    }
  }
  assert.equal(await countRuns(Loaded, "counter", { seeds: 40 }), 40);
});

test("what cannot be copied is rejected", async () => {
  class Hidden {
    #field = 1;

    get field() {
      return this.#field;
    }
  }
  for (const uncopied of [() => 1, Promise.resolve(1), new Hidden(), Symbol("a lock")]) {
    class Uncopied extends Counter {
      save() {
        return { uncopied };
      }

      load() {}
    }
    class UncopiedState extends MergedCounter {
      state() {
        return [uncopied];
      }

      merge() {}
    }
    const isRejected = (what) => (error) => error instanceof NotRepresentable && what.test(error.message);
    const saved = /what 'a' saved cannot be copied .*or pass restarts: false/;
    await assert.rejects(checkRandom(Uncopied, "counter"), isRejected(saved));
    const state = /state of '.' cannot be copied .*or pass lateStates: false/;
    await assert.rejects(checkRandom(UncopiedState, "counter"), isRejected(state));
  }
});

test("a plan has the events of its profile", async (t) => {
  for (const [option, actions] of Object.entries(EVENTS)) {
    await t.test(option, () => {
      const merges = option === "lateStates";
      const without = plans("counter", makeTraits(["increment"], { merges })).map((it) => it.action);
      assert.ok(!actions.some((it) => without.includes(it)));
      const chosen = plans("counter", makeTraits(["increment"], { merges, profile: { [option]: true } }));
      const found = chosen.map((it) => it.action);
      assert.ok(actions.every((it) => found.includes(it)));
    });
  }
});

/** Returns how many messages of a plan arrive before an earlier one of the same sender. */
function countEarly(steps) {
  // Each message has its place among those of its sender.
  const places = new Map();
  const sent = new Map();
  const last = new Map();
  let early = 0;
  for (const { action, replica, number } of steps) {
    if (action === "update") {
      places.set(number, { sender: replica, place: sent.get(replica) ?? 0 });
      sent.set(replica, (sent.get(replica) ?? 0) + 1);
    }
    if (action !== "deliver") continue;
    const { sender, place } = places.get(number);
    const key = `${replica} ${sender}`;
    early += place < (last.get(key) ?? -1) ? 1 : 0;
    last.set(key, Math.max(place, last.get(key) ?? -1));
  }
  return early;
}

test("messages arrive in any order if the type promises it", async (t) => {
  for (const delivery of ["causal", "any"]) {
    await t.test(delivery, () => {
      const traits = makeTraits(["increment"], { profile: { delivery } });
      const early = range(30).reduce((sum, seed) => sum + countEarly(plan("counter", seed, traits)), 0);
      assert.equal(early > 0, delivery === "any");
    });
  }
});

test("partitions are short and long, of one replica and of two groups", () => {
  const lengths = [];
  const sizes = new Set();
  for (const seed of range(200)) {
    const network = new Network(new RandomNumbers(seed), 4, 30);
    for (const now of range(100)) {
      const before = new Set(network.partitions);
      network.advance(now, range(4));
      for (const { end, sides } of network.partitions) {
        const isDivided = new Set(sides).size === 2;
        assert.ok(!isDivided || !network.areConnected(sides.indexOf(true), sides.indexOf(false)));
      }
      for (const { end, sides } of network.partitions.filter((it) => !before.has(it))) {
        lengths.push(end - now);
        sizes.add(sides.filter((it) => it).length);
      }
    }
  }
  assert.deepEqual([Math.min(...lengths), Math.max(...lengths) > 50], [5, true]);
  assert.ok(sizes.has(1) && sizes.has(2));
});

test("a delayed message is not due", () => {
  let delayed = 0;
  for (const seed of range(50)) {
    const network = new Network(new RandomNumbers(seed), 2, 30);
    network.send(1, 0);
    delayed += network.isDue(1, 0, 0) ? 0 : 1;
    assert.ok(network.isDue(1, 0, 20));
    network.recover();
    assert.ok(network.isDue(1, 0, 0));
  }
  assert.ok(delayed > 5);
});

test("boundary values and long runs occur", async (t) => {
  for (const [kind, method] of [["register", "write"], ["rga", "insertAfter"], ["lwwset", "add"]]) {
    await t.test(kind, () => {
      const steps = plans(kind, makeTraits([method]), 250).filter((it) => it.action === "update");
      const values = steps.map((it) => it.arguments.at(-1));
      assert.ok(BOUNDARIES.every((it) => values.includes(it)));
      assert.ok(values.filter((it) => it < 100).length > values.length / 2);
    });
  }
  const counts = range(200).map(
    (seed) => plan("counter", seed, makeTraits(["increment"])).filter((it) => it.action === "update").length,
  );
  assert.deepEqual([Math.min(...counts), Math.max(...counts) >= 230], [30, true]);
  assert.ok(counts.filter((it) => it >= 230).length >= 4);
});

test("amounts stay within what the monitor counts", () => {
  const traits = makeTraits(["increment", "decrement"], { amounts: true });
  const seen = new Set();
  for (const seed of range(60)) {
    const amounts = plan("counter", seed, traits).flatMap((it) => it.arguments);
    for (const it of amounts) seen.add(it);
    assert.ok(amounts.filter((it) => it > 1).reduce((sum, it) => sum + it, 0) <= MAX_TOTAL);
  }
  assert.deepEqual([...seen].sort((one, other) => one - other), [...new Set(AMOUNTS)]);
});

test("a seed plans no value twice", () => {
  for (const seed of range(60)) {
    const steps = plan("rga", seed, makeTraits(["insertAfter"]), 60).filter((it) => it.action === "update");
    assert.equal(new Set(steps.map((it) => it.arguments[1])).size, steps.length);
  }
});

test("what a type cannot promise is rejected", async () => {
  const cases = [
    [Counter, { delivery: "fifo" }, /delivery='fifo': expected 'causal' or 'any'/],
    [Counter, { lateStates: true }, /lateStates=true: .* expected one with state\(\) and merge\(state\)/],
    [MergedCounter, { delivery: "any" }, /this type merges states, for which lateStates is meant/],
    [MergedCounter, { duplicates: true }, /this type merges states/],
  ];
  for (const [Replica, options, message] of cases) {
    const isExpected = (error) => error instanceof RangeError && message.test(error.message);
    await assert.rejects(checkRandom(Replica, "counter", options), isExpected);
  }
  await assert.rejects(checkRandom(Counter, "counter", { restarts: true }), /this one lacks save, load/);
});

test("a profile follows from the methods of the class", async () => {
  for (const { Replica, kind } of [PLANTED.forgets_its_clock, PLANTED.undoes_newer_entries]) {
    await failureOf(Replica, kind);
  }
  assert.equal(await countRuns(saving(LwwSet), "lwwset", { seeds: 5 }), 5);
  assert.equal(await countRuns(AmountCounter, "counter", { seeds: 5 }), 5);
});
