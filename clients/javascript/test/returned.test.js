// Messages and states, which must not change after a replica returned them.
import assert from "node:assert/strict";
import { readFileSync } from "node:fs";
import { test } from "node:test";
import { ReplicaRaised, checkRandom, replay } from "../index.js";
import { Driver } from "../src/driver.js";
import { makeProfile } from "../src/profile.js";
import { Changed } from "../src/returned.js";
import { makeStep } from "../src/steps.js";
import { MergedCounter, saving } from "./network_replicas.js";
import { Counter } from "./replicas.js";

/** Returns the same object each time. */
class Reuses extends Counter {
  message = {};

  step(by) {
    return Object.assign(this.message, super.step(by));
  }
}

/** Changes what it receives. */
class ChangesMessages extends Counter {
  receive(message) {
    super.receive(message);
    message.received = true;
  }
}

/** Returns its own object as its state. */
class Live extends MergedCounter {
  state() {
    return [this.name, this.steps];
  }
}

/** Sends a message that has no JSON, and changes it. */
class SendsUnshown extends ChangesMessages {
  step(by) {
    const message = super.step(by);
    return Object.assign(message, { itself: message });
  }
}

/** Returns a driver of replicas with the first of these names. */
const makeDriver = (Replica, count, profile, steps) => {
  const replicas = ["a", "b", "c"].slice(0, count);
  const make = (name) => new Replica(name);
  return new Driver({ make, kind: "counter", replicas, profile: makeProfile(profile) }, steps);
};

/** Returns the error, which is the same if the stored steps are run again, as the suggested test does. */
async function failureOf(Replica) {
  const failed = await checkRandom(Replica, "counter").catch((error) => error);
  assert.ok(failed instanceof ReplicaRaised, failed);
  assert.equal(failed.cause, undefined);
  assert.ok(failed.message.includes(`await replay(${Replica.name}, ${JSON.stringify(failed.steps)});`));
  const again = await replay(Replica, failed.steps).catch((error) => error);
  assert.ok(again instanceof ReplicaRaised, again);
  assert.equal(again.operation, failed.operation);
  return failed;
}

const causeOf = (failed) => JSON.parse(readFileSync(failed.steps, "utf8")).cause;

test("a message that changed after it was returned is a failure", async () => {
  for (const [Replica, change] of [
    [Reuses, '\\{"by":-?1\\}, and is \\{"by":-?1\\} now'],
    [ChangesMessages, '\\{"by":(-?1)\\}, and is \\{"by":\\1,"received":true\\} now'],
  ]) {
    const failed = await failureOf(Replica);
    const outcome =
      "failed: message 1 changed after it was returned; return a copy, and change no received message";
    assert.match(failed.operation, new RegExp(`^'[abc]': receive\\(message 1\\) ${outcome}$`));
    const returning = "message 1 was returned by '[abc]': (?:in|de)crement\\(\\)";
    assert.match(failed.message.split("\n")[1], new RegExp(`^${returning}, as ${change}$`));
    assert.deepEqual(causeOf(failed), ["changed", "message"]);
    assert.equal(await replay(Counter, failed.steps), 3);
  }
});

test("a state that changed after it was returned is a failure", async () => {
  const failed = await failureOf(Live);
  const outcome = "failed: state 1 changed after it was returned; return a copy";
  assert.match(failed.operation, new RegExp(`^'[abc]': merge\\(state 1, which was taken earlier\\) ${outcome}$`));
  const change = 'as \\["(.)",\\{.*\\}\\], and is \\["\\1",\\{.*\\}\\] now';
  const returning = "state 1 was returned by '[abc]': state\\(\\)";
  assert.match(failed.message.split("\n")[1], new RegExp(`^${returning}, ${change}$`));
  assert.deepEqual(causeOf(failed), ["changed", "state"]);
  assert.equal(await replay(MergedCounter, failed.steps), 3);
  // A state that is merged at once has no time to change.
  assert.equal((await checkRandom(Live, "counter", { seeds: 40, lateStates: false })).runs, 40);
});

test("a changed message is not received again after a restart", async () => {
  const steps = [
    makeStep("update", 0, 1, "increment"), makeStep("deliver", 1, 1), makeStep("update", 0, 2, "decrement"),
    makeStep("restart", 1), makeStep("read", 1),
  ];
  const driver = makeDriver(saving(Reuses), 2, { restarts: true }, steps);
  assert.ok((await driver.execute(steps)).error instanceof Changed);
  assert.deepEqual(driver.executed, steps.slice(0, -1));
});

test("a message that cannot be shown is not compared", async () => {
  assert.equal((await checkRandom(SendsUnshown, "counter", { seeds: 20 })).runs, 20);
});

test("each replica merges a copy of a late state", async () => {
  const merged = [];
  /** Empties what it receives. */
  class EmptiesStates extends MergedCounter {
    merge(state) {
      merged.push(Object.values(state[1]).reduce((sum, [up, down]) => sum + up - down, 0));
      super.merge(state);
      for (const name of Object.keys(state[1])) delete state[1][name];
    }
  }
  const steps = [
    makeStep("update", 0, 1, "increment"), makeStep("snapshot", 0, 1), makeStep("merge_snapshot", 1, 1),
    makeStep("merge_snapshot", 2, 1),
  ];
  assert.equal(await makeDriver(EmptiesStates, 3, { lateStates: true }, steps).execute(steps), null);
  assert.deepEqual(merged, [1, 1]);
});
