// The kind `list`: its operations, the causes of its violations, and random runs of lists.
import assert from "node:assert/strict";
import { mkdtempSync, readFileSync } from "node:fs";
import { tmpdir } from "node:os";
import { join } from "node:path";
import { test } from "node:test";
import {
  NotLinearizable, NotRepresentable, Recorder, ReplicaRaised, checkRandom, difference, insert, inserted, remove,
  replay,
} from "../index.js";
import { RandomNumbers } from "../src/random_numbers.js";
import { BUGS, Fugue, LosesADelivery, SiblingsByArrival, namedByIndex } from "./list_replicas.js";
import { forking } from "./replicas.js";

// The number of runs of correct replicas. The gate runs fewer than the thousand of the README.
const RUNS = Number(process.env.YEHATU_RUNS ?? 100);
// The largest number of runs until a bug is found, and the largest number of commands of its history.
const FOUND_WITHIN = 200;
const LONGEST_HISTORY = 12;
// The number of pairs of lists whose difference is tried, and of the elements that they can have.
const PAIRS = 300;
const ELEMENTS = 12;

/** Throws an error where a third element is inserted at the end. */
class ThrowsAtTheEnd extends Fugue {
  insert(index, element) {
    if (index === 2) throw new RangeError("too far");
    return super.insert(index, element);
  }
}

/** Returns the commands that were reported. */
const lines = (recorder) => recorder.history().split("\n").slice(2, -1);

/** Reports two insertions by replicas that know nothing of each other, and their deliveries. */
async function twoElements(recorder) {
  await recorder.insert("a", null, "x", null, { message: 1 });
  await recorder.insert("b", null, "y", null, { message: 2 });
  await recorder.deliver("a", 2);
  await recorder.deliver("b", 1);
}

async function requireViolation(cause, text, report) {
  const recorder = new Recorder("list", ["a", "b"], { window: 1 });
  const failed = await report(recorder).catch((error) => error);
  await recorder.stop();
  assert.ok(failed instanceof NotLinearizable, failed);
  assert.equal(failed.cause, cause);
  assert.ok(failed.message.includes(text), failed.message);
}

/** Returns the error of random runs of a buggy list. */
const failureOf = (make, options) => checkRandom(make, "list", { seeds: FOUND_WITHIN, ...options }).then(
  (it) => assert.fail(`${it.runs} runs pass`),
  (error) => error,
);

test("an insertion is reported with both neighbours", async () => {
  const recorder = new Recorder("list", ["ann", "bob"]);
  await recorder.insert("ann", null, "x", null, { message: 1 });
  await recorder.insert("ann", "x", "z", null, { message: 2 });
  assert.equal(await recorder.insert("ann", "x", "y", "z", { act: () => "act", message: 3 }), "act");
  for (const message of [1, 2, 3]) await recorder.deliver("bob", message);
  await recorder.remove("bob", "x", { message: 4 });
  await recorder.insert("bob", null, "w", "y");
  await recorder.read("bob", ["w", "y", "z"]);
  await recorder.deliver("ann", 4);
  await recorder.read("ann", ["y", "z"]);
  await recorder.close();
  assert.deepEqual(lines(recorder), [
    "ann insert 0 1 0", "ann insert 1 2 0", "ann insert 1 3 2", "bob got 0", "bob got 1", "bob got 2",
    "bob remove 1", "bob insert 0 4 3", "bob read 4,3,2", "ann got 3", "ann read 3,2",
  ]);
});

test("a move in a list is one message", async () => {
  const recorder = new Recorder("list", ["a", "b"]);
  await recorder.update("a", [insert(null, "x", null), insert("x", "y", null)], { message: "both" });
  await recorder.update("a", [remove("x"), insert("y", "x again", null)], { message: "move" });
  await recorder.merge("b", recorder.seen("a"));
  await recorder.read("b", ["y", "x again"]);
  await recorder.close();
  const expected = ["a insert 0 1 0", "a insert 1 2 0", "a remove 1", "a insert 2 3 0"];
  assert.deepEqual(lines(recorder).slice(0, 4), expected);
});

test("a part of a list is reported", async () => {
  const recorder = new Recorder("list", ["a"]);
  await recorder.insert("a", null, "x", null);
  await recorder.insert("a", "x", "y", null);
  await recorder.insert("a", "y", "z", null);
  assert.deepEqual(await recorder.part("a", ["x", "z"]), ["x", "z"]);
  assert.deepEqual(await recorder.part("a", () => []), []);
  await recorder.close();
  assert.deepEqual(lines(recorder).slice(-2), ["a part 1,3", "a part -"]);
  const other = new Recorder("rga", ["a"]);
  const message = /part is not a read of the kind rga: it is one of the kind list/;
  await assert.rejects(other.part("a", []), message);
  await other.stop();
});

test("an operation of another list is rejected", async () => {
  const recorder = new Recorder("list", ["a"]);
  const message = /insertAfter is not an operation of the kind list: expected/;
  const failed = await recorder.insertAfter("a", null, "x", 1).catch((error) => error);
  assert.ok(failed instanceof NotRepresentable, failed);
  assert.match(failed.message, message);
  await recorder.stop();
});

/** Returns the list after these operations. Each insertion has to name its neighbours. */
function applied(before, operations) {
  const shown = [...before];
  for (const { word, value, left, right } of operations) {
    if (word === "remove") {
      shown.splice(shown.indexOf(value), 1);
      continue;
    }
    const index = left === null ? 0 : shown.indexOf(left) + 1;
    assert.equal(shown[index] ?? null, right, `${value} into ${shown}`);
    assert.ok(left === null || index > 0, `${value} into ${shown}`);
    shown.splice(index, 0, value);
  }
  return shown;
}

test("an insertion at an index has the neighbours on both sides", () => {
  assert.deepEqual(inserted([], 0, "x"), insert(null, "x", null));
  assert.deepEqual(inserted("ab", 0, "x"), insert(null, "x", "a"));
  assert.deepEqual(inserted("ab", 1, "x"), insert("a", "x", "b"));
  assert.deepEqual(inserted(new Set("ab"), 2, "x"), insert("b", "x", null));
  for (const index of [-1, 3, 0.5]) {
    const expected = { name: "RangeError", message: /into 2 elements: expected 0 to 2/ };
    assert.throws(() => inserted("ab", index, "x"), expected);
  }
});

test("a difference leads from one list to the other", () => {
  const random = new RandomNumbers("difference");
  const all = Array.from({ length: ELEMENTS }, (_, number) => number + 1);
  const chosen = () => random.sample(all, random.number(0, ELEMENTS));
  for (let pair = 0; pair < PAIRS; pair += 1) {
    const [before, changed] = [chosen(), chosen()];
    // What both lists have keeps its order.
    const kept = before.filter((it) => changed.includes(it));
    const after = changed.map((it) => (before.includes(it) ? kept.shift() : it));
    const operations = difference(before, after);
    assert.deepEqual(applied(before, operations), after);
    const isInOne = all.filter((it) => before.includes(it) !== after.includes(it));
    assert.equal(operations.length, isInOne.length);
  }
});

test("what is no difference is rejected", () => {
  const rejected = (before, after, message) =>
    assert.throws(() => difference(before, after), { name: "NotRepresentable", message });
  rejected("aba", "b", /'a' stands twice in the list before the change: expected/);
  rejected("ab", "aab", /'a' stands twice in the list after the change: expected/);
  rejected([["a", 1], ["a", 2]], [["a", 1], ["a", 1]], /\[ 'a', 1 \] stands twice in the list after the change/);
  rejected("abcd", "acbd", /'c' and 'b' changed their order: report a moved element as/);
});

test("a recorder reports the difference of two texts", async () => {
  const recorder = new Recorder("list", ["ann", "bob"]);
  await recorder.update("ann", difference("", "word"), { message: 1 });
  await recorder.update("ann", difference("word", "wobld"), { message: 2 });
  await recorder.update("ann", difference("wobld", "wobld"), { message: 3 });
  for (const message of [1, 2, 3]) await recorder.deliver("bob", message);
  await recorder.read("ann", "wobld");
  await recorder.read("bob", "wobld");
  await recorder.close();
  assert.deepEqual(lines(recorder).slice(0, 7), [
    "ann insert 0 1 0", "ann insert 1 2 0", "ann insert 2 3 0", "ann insert 3 4 0", "ann remove 3", "ann insert 2 5 4",
    "ann insert 5 6 4",
  ]);
});

test("two reads that no order explains", () =>
  requireViolation(
    "order", "no single order of the elements agrees with all reads and insertions", async (recorder) => {
      await twoElements(recorder);
      await recorder.part("a", ["x", "y"]);
      await recorder.read("b", ["y", "x"]);
    },
  ));

test("an element that is inserted twice", () =>
  requireViolation(
    "update", "inserts 'x': not RA-linearizable, it inserts an element that was", async (recorder) => {
      await recorder.insert("a", null, "x", null);
      await recorder.insert("b", null, "x", null);
    },
  ));

test("a neighbour that did not arrive", () =>
  requireViolation(
    "query", "inserts 'y' behind 'x': not RA-linearizable, it does not follow", async (recorder) => {
      await recorder.insert("a", null, "x", null);
      await recorder.insert("b", "x", "y", null);
    },
  ));

test("a list that leaves out an element", () =>
  requireViolation("query", "inserts 'z' behind 'x' and before 'y'", async (recorder) => {
    await twoElements(recorder);
    await recorder.insert("a", "x", "z", "y");
    await recorder.read("a", ["x", "z"]);
  }));

test("all runs of a correct list pass", async () => {
  assert.equal(Number(await checkRandom(Fugue, "list", { seeds: RUNS })), RUNS);
  const options = { replicas: 4, operations: 40, seeds: RUNS, duplicates: true };
  assert.equal(Number(await checkRandom(forking(Fugue), "list", options)), RUNS);
});

test("each planted bug of a list is found and shrunk", async (t) => {
  for (const [bug, make] of Object.entries(BUGS)) {
    await t.test(bug, async () => {
      const failed = await failureOf(make);
      assert.ok(failed instanceof NotLinearizable, failed);
      const text = readFileSync(failed.history, "utf8");
      assert.ok(text.split("\n").length - 3 <= LONGEST_HISTORY, text);
    });
  }
});

test("a list may name its methods by the index", async () => {
  const result = await checkRandom(namedByIndex(Fugue), "list", { seeds: RUNS, weights: { removeAt: 2 } });
  assert.deepEqual([result.runs, [...result.unused]], [RUNS, []]);
  const path = join(mkdtempSync(join(tmpdir(), "yehatu-")), "failure.json");
  const failed = await failureOf(namedByIndex(SiblingsByArrival), { failure: path });
  assert.ok(failed instanceof NotLinearizable, failed);
  await assert.rejects(replay(SiblingsByArrival, path), /still fails: /);
  assert.ok((await replay(namedByIndex(Fugue), path)) > 3);
  const thrown = await failureOf(namedByIndex(ThrowsAtTheEnd));
  assert.match(thrown.operation, /^'[abc]': insertAt\(2, 3\) threw RangeError: too far$/);
  assert.match(thrown.message, /^ +[abc]\.insertAt\(2, 3\);$/m);
});

test("the test of a list has the indexes of its calls", async () => {
  const failed = await failureOf(ThrowsAtTheEnd);
  assert.ok(failed instanceof ReplicaRaised, failed);
  assert.match(failed.operation, /^'[abc]': insert\(2, 3\) threw RangeError: too far$/);
  assert.match(failed.message, /^ +const m\d = [abc]\.insert\(0, 1\);$|^ +[abc]\.insert\(0, 1\);$/m);
  assert.match(failed.message, /^ +[abc]\.insert\([01], 2\);$/m);
  assert.match(failed.message, /^ +[abc]\.insert\(2, 3\);$/m);
});

test("a failure of a list is run again", async () => {
  const path = join(mkdtempSync(join(tmpdir(), "yehatu-")), "failure.json");
  const failed = await failureOf(SiblingsByArrival, { failure: path });
  assert.ok(failed instanceof NotLinearizable, failed);
  await assert.rejects(replay(SiblingsByArrival, path), /still fails: /);
  assert.ok((await replay(Fugue, path)) > 3);
});

test("a list with other elements is reported as a read", async () => {
  const failed = await failureOf(LosesADelivery);
  assert.ok(failed instanceof NotLinearizable, failed);
  assert.equal(failed.cause, "query");
  assert.match(failed.operation, /^'[abc]' reads \[/);
});
