// Each limit at its bound: the last value of the format, which the program accepts, and the first value beyond it.
import assert from "node:assert/strict";
import { test } from "node:test";
import { NotRepresentable, NotLinearizable, Recorder, checkRandom } from "../index.js";

const GREATEST = 4_294_967_295;
const FIRST_GREAT = 268_435_456;
const LONGEST = "abcdefghijklmnop";
const commands = (recorder) => recorder.history().split("\n").slice(2, -1);
const isNotRepresentable = (message) => (fault) => fault instanceof NotRepresentable && fault.message.includes(message);
const numbers = (count) => Array.from({ length: count }, (_, number) => number);
const oneByOne = { window: 1 };
const WHOLE_NUMBER = "expected a whole number from -2147483648 to 2147483647";

test("the bounds of a counter's read", async () => {
  for (const value of [2_147_483_647, 2_147_483_647n, -2_147_483_648, -2_147_483_648n]) {
    const recorder = new Recorder("counter", ["a"], oneByOne);
    // The program reads the number, and finds that the counter is at 0.
    const failed = await recorder.read("a", value).catch((fault) => fault);
    assert.ok(failed instanceof NotLinearizable, failed);
    assert.deepEqual([failed.operation, failed.cause], [`'a' reads ${value}`, "query"]);
    assert.deepEqual(commands(recorder), [`a read ${value}`]);
    await recorder.stop();
  }
  for (const value of [2_147_483_648, 2_147_483_648n, -2_147_483_649, -2_147_483_649n]) {
    const recorder = new Recorder("counter", ["a"], oneByOne);
    await assert.rejects(recorder.read("a", value), isNotRepresentable(WHOLE_NUMBER));
    assert.deepEqual(commands(recorder), []);
    await recorder.stop();
  }
});

test("a counter's read that is not a whole number", async () => {
  for (const value of [null, undefined, true, 1.5, NaN, Infinity, "7", "", []]) {
    const recorder = new Recorder("counter", ["a"], oneByOne);
    await assert.rejects(recorder.read("a", value), isNotRepresentable(WHOLE_NUMBER));
    await recorder.stop();
  }
});

/** Returns the lines of writes with these clocks, which the program accepts. */
async function written(clocks) {
  const recorder = new Recorder("register", clocks.map((_, place) => `${place}`), oneByOne);
  try {
    for (const [place, clock] of clocks.entries()) await recorder.write(`${place}`, place, clock);
    assert.equal((await recorder.close()).verdict, "yes");
  } finally {
    await recorder.stop();
  }
  return commands(recorder);
}

// A clock may be a number or a bigint.
const KINDS_OF_CLOCKS = [Number, BigInt];

test("the bounds of a clock", async () => {
  for (const of of KINDS_OF_CLOCKS) {
    assert.deepEqual(await written([of(1)]), ["r0 write 1 @1"]);
    assert.deepEqual(await written([of(GREATEST)]), [`r0 write 1 @${GREATEST}`]);
    assert.deepEqual(await written([of(1), of(GREATEST)]), ["r0 write 1 @1", `r1 write 2 @${GREATEST}`]);
    const range = `this history can represent the clocks from 1 to ${GREATEST}`;
    const late = `${GREATEST + 1} is too late: ${range}`;
    await assert.rejects(written([of(0)]), isNotRepresentable(`0 is too early: ${range}`));
    await assert.rejects(written([of(1), of(GREATEST + 1)]), isNotRepresentable(late));
    await assert.rejects(written([of(GREATEST), of(GREATEST + 1)]), isNotRepresentable(late));
  }
});

test("the bounds of clocks that are counted from the first one", async () => {
  const first = GREATEST + 1;
  const [early, late] = [first - 268_435_455, first + 4_026_531_839];
  const line = `r0 write 1 @${FIRST_GREAT}`;
  for (const of of KINDS_OF_CLOCKS) {
    assert.deepEqual(await written([of(first)]), [line]);
    assert.deepEqual(await written([of(first), of(early)]), [line, "r1 write 2 @1"]);
    assert.deepEqual(await written([of(first), of(late)]), [line, `r1 write 2 @${GREATEST}`]);
    const range = `this history can represent the clocks from ${early} to ${late}`;
    const tooEarly = `${early - 1} is too early: ${range}`;
    const tooLate = `${late + 1} is too late: ${range}`;
    await assert.rejects(written([of(first), of(early - 1)]), isNotRepresentable(tooEarly));
    await assert.rejects(written([of(first), of(late + 1)]), isNotRepresentable(tooLate));
  }
});

test("a clock that no number represents exactly is a bigint", async () => {
  assert.deepEqual(await written([2 ** 53 - 1, 2n ** 53n]), ["r0 write 1 @268435456", "r1 write 2 @268435457"]);
  await assert.rejects(written([2 ** 53]), isNotRepresentable("is not a whole number"));
});

test("names of sixteen letters are kept, and longer ones are replaced", async () => {
  const valid = [LONGEST, "z123456789012345", "a", "verdic", "joins"].map((it) => [it, it]);
  const invalid = [`${LONGEST}q`, `${LONGEST}0`, "", "1a", "aB", "a_b", "a b", "a\n", "é", "join", "verdict", 1];
  for (const [key, name] of [...valid, ...invalid.map((it) => [it, "r0"])]) {
    const recorder = new Recorder("counter", [key, "other"], oneByOne);
    await recorder.increment(key, { message: 1 });
    await recorder.deliver("other", 1);
    assert.equal((await recorder.close()).verdict, "yes");
    assert.equal(recorder.history(), `RAH 2 counter\nreplicas ${name} other\n${name} inc\nother got 0\n`);
    const joined = new Recorder("counter", ["other"], oneByOne);
    await joined.join(key, "other");
    await joined.read(key, 0);
    assert.equal((await joined.close()).verdict, "yes");
    assert.deepEqual(commands(joined), [`join ${name} other`, `${name} read 0`]);
  }
});

test("a name for each of sixty-four replicas", async () => {
  // The user's names take all but one of the names that the client assigns.
  const keys = [...numbers(63).map((it) => `r${it}`), "Ann"];
  const one = new Recorder("counter", keys, oneByOne);
  await one.read("Ann", 0);
  assert.equal((await one.close()).verdict, "yes");
  assert.deepEqual(commands(one), ["r63 read 0"]);
  const two = new Recorder("counter", [...keys.slice(1), "Bob"], oneByOne);
  await two.read("Ann", 0);
  await two.read("Bob", 0);
  assert.equal((await two.close()).verdict, "yes");
  assert.deepEqual(commands(two), ["r0 read 0", "r63 read 0"]);
});

test("the bounds of the number of replicas", async () => {
  for (const count of [1, 64]) {
    const recorder = new Recorder("counter", numbers(count), oneByOne);
    await recorder.read(count - 1, 0);
    assert.equal((await recorder.close()).verdict, "yes");
    assert.deepEqual(commands(recorder), [`r${count - 1} read 0`]);
  }
  for (const count of [0, 65]) {
    assert.throws(() => new Recorder("counter", numbers(count)), isNotRepresentable("1 to 64 replicas"));
  }
  const twice = () => new Recorder("counter", ["a", "b", "a"]);
  assert.throws(twice, isNotRepresentable("replicas with distinct names"));
});

test("the names of the replicas of a random run", async () => {
  for (const [count, first, last] of [[1, "a", "a"], [26, "a", "z"], [27, "r00", "r26"], [64, "r00", "r63"]]) {
    const created = new Set();
    const make = (name) => {
      created.add(name);
      return { increment() {}, decrement() {}, receive() {}, read: () => 0 };
    };
    assert.equal((await checkRandom(make, "counter", count, 0, 1)).runs, 1);
    const names = [...created].sort();
    assert.deepEqual([names.length, names[0], names.at(-1)], [count, first, last]);
  }
});
