// The advice of docs/howto/instrument_a_library.md, as tests.
import assert from "node:assert/strict";
import { test } from "node:test";
import { NotLinearizable, Recorder } from "../index.js";

/** Runs the work with a recorder, and requires that the monitor passes it. */
async function passes(kind, names, work) {
  const recorder = new Recorder(kind, names);
  await work(recorder);
  assert.equal((await recorder.close()).verdict, "yes");
}

/** Runs the work with a recorder, and requires that the call that it returns is a violation for this cause. */
async function fails(kind, names, cause, work) {
  const recorder = new Recorder(kind, names, { window: 1 });
  const last = await work(recorder);
  const failed = await last().catch((fault) => fault);
  assert.ok(failed instanceof NotLinearizable, failed);
  assert.equal(failed.cause, cause);
  await recorder.stop();
}

test("a state in transit carries what its sender had seen", () =>
  passes("lwwset", ["ann", "bob", "carol"], async (recorder) => {
    await recorder.add("ann", "milk", { stamp: 1 });
    const state = recorder.seen("ann");
    await recorder.remove("ann", "milk", { stamp: 2 });
    await recorder.merge("bob", state);
    await recorder.read("bob", ["milk"]);
    await recorder.merge("carol", recorder.seen("ann"));
    await recorder.read("carol", []);
  }));

test("a tombstone is an anchor", () =>
  passes("rga", ["ann", "bob"], async (recorder) => {
    await recorder.insertAfter("ann", null, "a", 1, { message: 1 });
    await recorder.deliver("bob", 1);
    await recorder.remove("ann", "a");
    await recorder.insertAfter("bob", "a", "b", 2, { message: 2 });
    await recorder.deliver("ann", 2);
    await recorder.read("ann", ["b"]);
  }));

test("a move is a removal and a new element", () =>
  passes("rga", ["ann", "bob"], async (recorder) => {
    await recorder.insertAfter("ann", null, ["a", 0], 1, { message: 1 });
    await recorder.insertAfter("ann", ["a", 0], ["b", 0], 2, { message: 2 });
    await recorder.remove("ann", ["a", 0], { message: 3 });
    await recorder.insertAfter("ann", ["b", 0], ["a", 1], 3, { message: 4 });
    await recorder.merge("bob", [1, 2, 3, 4]);
    await recorder.read("bob", [["b", 0], ["a", 1]]);
  }));

test("a removed element cannot be inserted again", () =>
  fails("rga", ["ann"], "update", async (recorder) => {
    await recorder.insertAfter("ann", null, "a", 1);
    await recorder.remove("ann", "a");
    return () => recorder.insertAfter("ann", null, "a", 2);
  }));

test("half a transaction is not detected", () =>
  passes("lwwset", ["ann", "bob"], async (recorder) => {
    await recorder.add("ann", "x", { stamp: 1, message: 1 });
    await recorder.add("ann", "y", { stamp: 2, message: 2 });
    await recorder.deliver("bob", 1);
    await recorder.read("bob", ["x"]);
  }));

test("a text is a list of unique characters", () =>
  passes("rga", ["ann"], async (recorder) => {
    const word = [["b", 1], ["o", 2], ["o", 3]];
    for (const [at, letter] of word.entries()) await recorder.insertAfter("ann", word[at - 1] ?? null, letter, at + 1);
    await recorder.read("ann", word);
  }));

test("a backup under the old name is a violation", () =>
  fails("register", ["ann"], "query", async (recorder) => {
    await recorder.write("ann", 1, 1);
    await recorder.write("ann", 2, 2);
    return () => recorder.read("ann", 1);
  }));

test("a backup under a name of its own", () =>
  passes("register", ["ann", "bob", "ann again"], async (recorder) => {
    await recorder.write("ann", 1, 1, { message: 1 });
    const backup = recorder.seen("ann");
    await recorder.write("ann", 2, 2, { message: 2 });
    await recorder.merge("ann again", backup);
    await recorder.read("ann again", 1);
    await recorder.write("ann again", 3, 2, { message: 3 });
    await recorder.merge("bob", [1, 3]);
    await recorder.read("bob", 3);
  }));

test("a later participant joins", () =>
  passes("rga", ["ann", "bob"], async (recorder) => {
    await recorder.insertAfter("ann", null, "a", 1, { message: 1 });
    await recorder.join("carol", "ann");
    await recorder.insertAfter("ann", "a", "b", 2, { message: 2 });
    await recorder.read("carol", ["a"]);
    await recorder.insertAfter("carol", "a", "c", 2, { message: 3 });
    await recorder.deliver("carol", 2);
    await recorder.read("carol", ["a", "c", "b"]);
    await recorder.merge("bob", [1, 2, 3]);
    await recorder.read("bob", ["a", "c", "b"]);
  }));

test("a monitor that starts late receives the existing state", () =>
  passes("counter", ["ann", "bob"], async (recorder) => {
    for (const number of [0, 1, 2]) await recorder.increment("ann", { message: number });
    await recorder.merge("bob", [0, 1, 2]);
    await recorder.read("bob", 3);
  }));

test("a read that is reported after the next delivery is a violation", () =>
  fails("counter", ["ann", "bob"], "query", async (recorder) => {
    await recorder.increment("ann", { message: 1 });
    const value = 0;
    await recorder.deliver("bob", 1);
    return () => recorder.read("bob", value);
  }));
