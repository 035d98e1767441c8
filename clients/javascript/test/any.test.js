// The kind `any`: its reports, which values are one, what is found, and random runs of types.
import assert from "node:assert/strict";
import { mkdtempSync, readFileSync } from "node:fs";
import { tmpdir } from "node:os";
import { join } from "node:path";
import { test } from "node:test";
import { isDeepStrictEqual } from "node:util";
import { NotLinearizable, NotRepresentable, Recorder, checkRandom, replay, update } from "../index.js";
import { ValueNumbering } from "../src/numbers.js";
import { RandomNumbers } from "../src/random_numbers.js";
import { AppliesByArrival, DOCUMENT_BUGS, Document, MergedDocument, ReadsFromACache } from "./any_replicas.js";
import { forking } from "./replicas.js";

// The number of runs of correct replicas. The gate runs fewer than the thousand of the README.
const RUNS = Number(process.env.YEHATU_RUNS ?? 100);
// The largest number of runs until a bug is found, and the largest number of commands of its history.
const FOUND_WITHIN = 200;
const LONGEST_HISTORY = 12;
// The number of pairs of values that are numbered.
const PAIRS = 2000;

/** A value of a class. */
class Point {
  constructor(x, tags) {
    Object.assign(this, { x, tags });
  }
}

/** Returns the commands that were reported. */
const lines = (recorder) => recorder.history().split("\n").slice(2, -1);

/** Returns the numbers of these values. */
function numbersOf(...values) {
  const numbering = new ValueNumbering();
  return values.map((it) => numbering.numberOf(it));
}

/** Returns the error of random runs of a buggy type. */
const failureOf = (make, options) => checkRandom(make, "any", { seeds: FOUND_WITHIN, ...options }).then(
  (it) => assert.fail(`${it.runs} runs pass`),
  (error) => error,
);

test("an update and a read of any value are reported", async () => {
  const recorder = new Recorder("any", ["ann", "bob"]);
  await recorder.update("ann", { message: "m1" });
  assert.equal(await recorder.update("bob", { act: () => "act", message: "m2" }), "act");
  await recorder.read("ann", { title: ["a"] });
  await recorder.deliver("ann", "m2");
  await recorder.deliver("bob", "m1");
  await recorder.read("ann", { title: ["a"], done: null });
  await recorder.read("bob", () => ({ done: null, title: ["a"] }));
  await recorder.update("ann", [update(), update()], { message: "both" });
  await recorder.merge("bob", recorder.seen("ann"));
  await recorder.join("cat", "bob");
  await recorder.read("cat", null);
  await recorder.update("cat", update());
  await recorder.update("cat");
  await recorder.close();
  assert.deepEqual(lines(recorder), [
    "ann update", "bob update", "ann read 1", "ann got 1", "bob got 0", "ann read 2", "bob read 2", "ann update",
    "ann update", "bob got 5", "bob got 6", "join cat bob", "cat read 3", "cat update", "cat update",
  ]);
});

test("an operation of another kind is rejected", async () => {
  const recorder = new Recorder("any", ["a"]);
  const rejects = (promise, message) => assert.rejects(promise, (error) => {
    assert.ok(error instanceof NotRepresentable, error);
    assert.match(error.message, message);
    return true;
  });
  await rejects(recorder.write("a", 1), /write is not an operation of the kind any: expected update/);
  await recorder.stop();
  const other = new Recorder("lwwset", ["a"]);
  await rejects(other.update("a"), /an update of the kind lwwset needs its operation: expected add or remove/);
  await other.stop();
});

test("two values for the same updates are a violation", async () => {
  const recorder = new Recorder("any", ["ann", "bob"], { window: 1 });
  await recorder.update("ann", { message: "m1" });
  await recorder.read("ann", { title: "a" });
  await recorder.read("bob", {});
  await recorder.deliver("bob", "m1");
  const failed = await recorder.read("bob", { title: "b" }).catch((error) => error);
  await recorder.stop();
  assert.ok(failed instanceof NotLinearizable, failed);
  assert.equal(failed.cause, "query");
  const begin =
    "'bob' reads { title: 'b' }: not RA-linearizable, an earlier read that sees the same updates returned another " +
    "value: 'ann' reads { title: 'a' }\n";
  assert.ok(failed.message.startsWith(begin), failed.message);
});

test("values are one if they are equal", () => {
  assert.deepEqual(numbersOf(1, 1n, "1", 1, true, null, undefined, "1"), [1, 2, 3, 1, 4, 5, 6, 3]);
  assert.deepEqual(numbersOf(0, -0, NaN, NaN, [NaN], [NaN]), [1, 2, 3, 3, 4, 4]);
  assert.deepEqual(numbersOf([1, 2], [2, 1], [1, 2], [1, [2]], [1, [2]]), [1, 2, 1, 3, 3]);
  assert.deepEqual(numbersOf({ a: 1, b: [2] }, { b: [2], a: 1 }, { a: 1 }, { a: 1, b: undefined }), [1, 1, 2, 3]);
  const maps = [new Map([[1, { a: 1 }], [2, 3]]), new Map([[2, 3], [1, { a: 1 }]]), new Map([[1, { a: 2 }], [2, 3]])];
  assert.deepEqual(numbersOf(...maps, new Set("ab"), new Set("ba"), new Set("a")), [1, 1, 2, 3, 3, 4]);
  const bytes = () => new Uint8Array([1, 2]);
  assert.deepEqual(numbersOf(new Date(1), new Date(1), new Date(2), bytes(), bytes()), [1, 1, 2, 3, 3]);
  assert.deepEqual(numbersOf(new Point(1, ["a"]), new Point(1, ["a"]), { x: 1, tags: ["a"] }), [1, 1, 2]);
});

/** Returns a random value of a few plain ones, of lists and of objects. */
function randomValue(random, depth = 2) {
  const some = (make) => Array.from({ length: random.number(0, 2) }, make);
  const inner = () => randomValue(random, depth - 1);
  const makers = [() => random.choice([0, 1, -0, "a", "b", null, undefined, true, 1n])];
  if (depth > 0) {
    makers.push(() => some(inner), () => Object.fromEntries(some(() => [random.choice(["a", "b"]), inner()])));
    makers.push(() => new Map(some(() => [inner(), inner()])), () => new Set(some(inner)));
    makers.push(() => new Point(inner(), some(inner)));
  }
  return random.choice(makers)();
}

test("values of any shape are one if and only if they are equal", () => {
  const random = new RandomNumbers("values");
  let equal = 0;
  for (let pair = 0; pair < PAIRS; pair += 1) {
    const [first, second] = [randomValue(random), randomValue(random)];
    const [one, other] = numbersOf(first, second);
    assert.equal(one === other, isDeepStrictEqual(first, second));
    equal += one === other ? 1 : 0;
  }
  assert.ok(equal > PAIRS / 100 && equal < PAIRS / 2, String(equal));
});

test("a value that changes later is known as it was", async () => {
  const recorder = new Recorder("any", ["a"]);
  const shown = { items: [1] };
  await recorder.read("a", shown);
  await recorder.update("a");
  shown.items.push(2);
  await recorder.read("a", shown);
  await recorder.update("a");
  await recorder.read("a", { items: [1] });
  await recorder.close();
  assert.deepEqual(lines(recorder), ["a read 1", "a update", "a read 2", "a update", "a read 1"]);
});

test("a value that has no equal copy is rejected", async () => {
  const cases = [
    [{ view: () => 1 }, /\{ view: \[Function: view\] \} cannot be copied \(a function: view\): expected plain data/],
    [new WeakMap(), /cannot be copied \(.*\): expected plain data/],
    [Object.assign([1], { extra: 2 }), null],
    [Object.defineProperty({}, Symbol("key"), { value: 1, enumerable: true }), /is not equal to a copy of itself/],
  ];
  for (const [value, message] of cases) {
    const recorder = new Recorder("any", ["a"]);
    if (message === null) await recorder.read("a", value);
    else await assert.rejects(recorder.read("a", value), { name: "NotRepresentable", message });
    await recorder.stop();
  }
});

test("all runs of a correct type pass", async () => {
  assert.equal(Number(await checkRandom(Document, "any", { seeds: RUNS })), RUNS);
  const options = { replicas: 4, operations: 40, seeds: RUNS, duplicates: true };
  assert.equal(Number(await checkRandom(forking(Document), "any", options)), RUNS);
  assert.equal(Number(await checkRandom(MergedDocument, "any", { seeds: RUNS })), RUNS);
});

test("each planted bug of a type is found and shrunk", async (t) => {
  for (const [bug, make] of Object.entries(DOCUMENT_BUGS)) {
    await t.test(bug, async () => {
      const failed = await failureOf(make);
      assert.ok(failed instanceof NotLinearizable, failed);
      const text = readFileSync(failed.history, "utf8");
      assert.ok(text.split("\n").length - 3 <= LONGEST_HISTORY, text);
    });
  }
});

test("the test of a type compares two reads", async () => {
  const { message } = await failureOf(AppliesByArrival);
  const source = message.split("the same as a test:\n\n")[1];
  assert.match(source, /^ +const read1 = structuredClone\([abc]\.read\(\)\);$/m);
  assert.match(source, /^ +assert\.deepEqual\([abc]\.read\(\), read1\);$/m);
  const body = source.slice(source.indexOf("=> {") + 4, source.lastIndexOf("});"));
  const run = new Function("assert", "AppliesByArrival", body);
  assert.throws(() => run(assert, AppliesByArrival), { code: "ERR_ASSERTION" });
  run(assert, Document);
});

test("a failure of a type shows the call of each update", async () => {
  const { message } = await failureOf(AppliesByArrival);
  const shown = message.split("\n").filter((it) => it.includes(" makes an update"));
  assert.ok(shown.length > 1, message);
  for (const line of shown) assert.match(line, /'[abc]' makes an update: update\([0-9]+\)/);
});

test("a failure of a type is run again", async () => {
  const path = join(mkdtempSync(join(tmpdir(), "yehatu-")), "failure.json");
  const failed = await failureOf(ReadsFromACache, { failure: path });
  assert.ok(failed instanceof NotLinearizable, failed);
  await assert.rejects(replay(ReadsFromACache, path), /still fails: /);
  assert.ok((await replay(Document, path)) > 2);
});
