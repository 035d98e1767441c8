// The kind `mvregister`: its reports, its violation, and random runs of registers that keep concurrent writes.
import assert from "node:assert/strict";
import { mkdtempSync, readFileSync } from "node:fs";
import { tmpdir } from "node:os";
import { join } from "node:path";
import { test } from "node:test";
import { NotLinearizable, Recorder, ReplicaRaised, checkRandom, replay, write } from "../index.js";
import { DropsConcurrent, MergedSiblings, SIBLING_BUGS, Siblings } from "./any_replicas.js";
import { forking } from "./replicas.js";

// The number of runs of correct replicas. The gate runs fewer than the thousand of the README.
const RUNS = Number(process.env.YEHATU_RUNS ?? 100);
// The largest number of runs until a bug is found, and the largest number of commands of its history.
const FOUND_WITHIN = 200;
const LONGEST_HISTORY = 12;

/** Returns a value in the place of a collection. */
class ReadsOneValue extends Siblings {
  read() {
    return "milk";
  }
}

/** Returns the commands that were reported. */
const lines = (recorder) => recorder.history().split("\n").slice(2, -1);

/** Returns the error of random runs of a buggy register. */
const failureOf = (make, options) => checkRandom(make, "mvregister", { seeds: FOUND_WITHIN, ...options }).then(
  (it) => assert.fail(`${it.runs} runs pass`),
  (error) => error,
);

test("writes and a read of several values are reported", async () => {
  const recorder = new Recorder("mvregister", ["ann", "bob"]);
  await recorder.read("ann", []);
  await recorder.write("ann", "tea", { message: "m1" });
  assert.equal(await recorder.write("bob", "milk", { act: () => "act", message: "m2" }), "act");
  await recorder.deliver("ann", "m2");
  await recorder.read("ann", ["milk", "tea"]);
  await recorder.read("ann", ["tea", "milk", "tea"].values());
  await recorder.update("ann", write("milk"), { message: "m3" });
  await recorder.merge("bob", recorder.seen("ann"));
  await recorder.read("bob", new Set(["milk"]));
  await recorder.write("bob", { sugar: 1 });
  await recorder.close();
  assert.deepEqual(lines(recorder), [
    "ann read -", "ann write 1", "bob write 2", "ann got 2", "ann read 1,2", "ann read 1,2", "ann write 2",
    "bob got 1", "bob got 5", "bob read 2", "bob write 3",
  ]);
});

test("a write that has a stamp is rejected", async () => {
  const recorder = new Recorder("mvregister", ["a"]);
  const message = /the writes of the kind mvregister have no stamps: got 1/;
  await assert.rejects(recorder.write("a", "tea", 1), { name: "NotRepresentable", message });
  await recorder.stop();
  const other = new Recorder("register", ["a"]);
  await assert.rejects(other.write("a", "tea"), { name: "NotRepresentable", message: /the stamp is missing/ });
  await other.stop();
});

test("a result that is no collection is rejected", async () => {
  const message = /expected an array or another iterable of the values/;
  for (const value of ["milk", 3, null]) {
    const recorder = new Recorder("mvregister", ["a"]);
    await assert.rejects(recorder.read("a", value), { name: "NotRepresentable", message });
    await recorder.stop();
  }
  const failed = await failureOf(ReadsOneValue);
  assert.ok(failed instanceof ReplicaRaised, failed);
  assert.match(failed.message, /returned 'milk': expected an array or another iterable of the values/);
});

test("a read without a concurrent value is a violation", async () => {
  const recorder = new Recorder("mvregister", ["ann", "bob"], { window: 1 });
  await recorder.write("ann", "tea", { message: "m1" });
  await recorder.write("bob", "milk");
  await recorder.deliver("bob", "m1");
  const failed = await recorder.read("bob", ["milk"]).catch((error) => error);
  await recorder.stop();
  assert.ok(failed instanceof NotLinearizable, failed);
  assert.equal(failed.cause, "query");
  const begin =
    "'bob' reads ['milk']: not RA-linearizable, it does not return exactly the values of the visible writes that no " +
    "other visible write replaced\n";
  assert.ok(failed.message.startsWith(begin), failed.message);
});

test("all runs of a correct register pass", async () => {
  assert.equal(Number(await checkRandom(Siblings, "mvregister", { seeds: RUNS })), RUNS);
  const options = { replicas: 4, operations: 40, seeds: RUNS };
  assert.equal(Number(await checkRandom(forking(Siblings), "mvregister", options)), RUNS);
  assert.equal(Number(await checkRandom(MergedSiblings, "mvregister", { seeds: RUNS })), RUNS);
});

test("each planted bug of a register is found and shrunk", async (t) => {
  for (const [bug, make] of Object.entries(SIBLING_BUGS)) {
    await t.test(bug, async () => {
      const failed = await failureOf(make);
      assert.ok(failed instanceof NotLinearizable, failed);
      const text = readFileSync(failed.history, "utf8");
      assert.ok(text.split("\n").length - 3 <= LONGEST_HISTORY, text);
    });
  }
});

test("a failure of a register is run again", async () => {
  const path = join(mkdtempSync(join(tmpdir(), "yehatu-")), "failure.json");
  const failed = await failureOf(DropsConcurrent, { failure: path });
  assert.ok(failed instanceof NotLinearizable, failed);
  await assert.rejects(replay(DropsConcurrent, path), /still fails: /);
  assert.ok((await replay(Siblings, path)) > 2);
});
