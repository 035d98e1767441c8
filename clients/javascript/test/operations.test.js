// Operations of several reports, and what the errors of a recorder name.
import assert from "node:assert/strict";
import { test } from "node:test";
import { NotLinearizable, NotRepresentable, Recorder, add, checkRandom, insertAfter, remove } from "../index.js";
import { Planner } from "../src/plans.js";
import { makeTraits } from "../src/profile.js";
import { Counter, LwwSet, OrSet } from "./replicas.js";

const commands = (recorder) => recorder.history().split("\n").slice(2, -1);
const isNotRepresentable = (message) => (error) => error instanceof NotRepresentable && message.test(error.message);

/** Runs this and returns what was written on standard error. */
async function captureStderr(act) {
  const { write } = process.stderr;
  let written = "";
  process.stderr.write = (text) => {
    written += text;
    return true;
  };
  try {
    await act();
  } finally {
    process.stderr.write = write;
  }
  return written;
}

/** Returns messages without their stamps. */
class WithoutStamp extends LwwSet {
  add(element) {
    return { ...super.add(element), stamp: undefined };
  }
}

test("a stamp of an OR-Set is rejected", async () => {
  for (const [call, named] of [["add", "identifier"], ["remove", "identifiers"]]) {
    const recorder = new Recorder("orset", ["a"]);
    const message = new RegExp(`an OR-Set has no stamps, and 5 is one: pass \`${named}\`, or nothing`);
    await assert.rejects(recorder[call]("a", "x", { stamp: 5 }), isNotRepresentable(message));
    await recorder.stop();
  }
});

test("identifiers of another kind are rejected", async () => {
  for (const [call, named] of [["add", "identifier"], ["remove", "identifiers"]]) {
    const recorder = new Recorder("lwwset", ["a"]);
    const isRejected = isNotRepresentable(/the kind lwwset has no identifiers: got/);
    await assert.rejects(recorder[call]("a", "x", { stamp: 5, [named]: [7] }), isRejected);
    await recorder.stop();
  }
});

test("a message without a stamp is named", async () => {
  const message = /add\(.*\) returned a message without a stamp, .*: expected a property `stamp`/s;
  await assert.rejects(checkRandom(WithoutStamp, "lwwset"), isNotRepresentable(message));
});

test("an amount is reported as that number of increments", async () => {
  const recorder = new Recorder("counter", ["a", "b"]);
  assert.equal(await recorder.increment("a", { by: 3, act: () => "act", message: "m" }), "act");
  await recorder.decrement("a", { by: 2 });
  await recorder.deliver("b", "m");
  await recorder.deliver("b", "m");
  await recorder.read("b", 3);
  await recorder.increment("b", { by: 256 });
  await recorder.read("b", 259);
  assert.equal((await recorder.close()).verdict, "yes");
  const expected = [...Array(3).fill("a inc"), "a dec", "a dec", "b got 0", "b got 1", "b got 2", "b read 3"];
  assert.deepEqual(commands(recorder).slice(0, 9), expected);
});

test("an amount that cannot be counted is rejected before the act", async () => {
  const recorder = new Recorder("counter", ["a"]);
  const act = () => assert.fail("the act was run");
  for (const [by, shown] of [[0, "0"], [-1, "-1"], [257, "257"], [1.5, "1.5"], ["2", "'2'"]]) {
    const message = new RegExp(
      `increment\\('a', \\{ by: ${shown} \\}\\): the amount .* since the monitor counts by one: expected .* 1 to 256`,
    );
    await assert.rejects(recorder.increment("a", { by, act }), isNotRepresentable(message));
  }
  await recorder.read("a", 0);
  await recorder.close();
});

test("a list of operations is one message", async () => {
  const recorder = new Recorder("rga", ["ann", "bob"]);
  await recorder.insertAfter("ann", null, "a", 1, { message: 1 });
  await recorder.insertAfter("ann", "a", "b", 2, { message: 2 });
  const move = [remove("a"), insertAfter("b", "a again", 3)];
  await recorder.update("ann", (sent) => sent, { act: () => move, message: "move" });
  for (const message of [1, 2, "move"]) await recorder.deliver("bob", message);
  await recorder.read("bob", ["b", "a again"]);
  await recorder.close();
  assert.deepEqual(commands(recorder).slice(-3), ["bob got 2", "bob got 3", "bob read 2,3"]);
});

test("a composition needs a new message", async () => {
  const recorder = new Recorder("orset", ["a"]);
  await recorder.add("a", "x", { message: 1 });
  const twice = recorder.update("a", [add("x"), add("y")], { message: 1 });
  await assert.rejects(twice, isNotRepresentable(/update\('a', .*\): the message 1 was reported before/));
  await recorder.stop();
});

test("clear removes what the replica shows", async () => {
  const recorder = new Recorder("orset", ["a", "b"]);
  await recorder.add("a", "x", { message: 1 });
  await recorder.add("b", "y", { message: 2 });
  await recorder.add("a", "z", { message: 3 });
  await recorder.remove("a", "z", { message: 4 });
  await recorder.deliver("a", 2);
  await recorder.add("b", "x", { message: 5 });
  await recorder.clear("a", { message: "clear" });
  await recorder.read("a", []);
  for (const message of [1, 3, 4, "clear"]) await recorder.deliver("b", message);
  await recorder.read("b", ["x"]);
  await recorder.close();
  assert.ok(commands(recorder).includes("a remove 1 #1"));
  const lww = new Recorder("lwwset", ["a", "b"]);
  for (const [at, element] of ["x", "y", "z"].entries()) await lww.add("a", element, { stamp: at + 1 });
  await lww.remove("a", "y", { stamp: 4 });
  await lww.merge("b", lww.seen("a"));
  await lww.clear("a", { stamps: { x: 6, z: 5 } });
  await lww.clear("b", { stamps: () => [[7, "b"], [8, "b"]], act: () => undefined });
  await lww.read("a", []);
  await lww.read("b", []);
  await lww.clear("b");
  await lww.add("a", "x", { stamp: 9 });
  await lww.clear("a", { stamps: new Map([["x", 10]]) });
  await lww.close();
  assert.deepEqual(commands(lww).filter((it) => it.includes("remove")), [
    "a remove 2 @4", "a remove 3 @5", "a remove 1 @6", "b remove 1 @7", "b remove 3 @8", "a remove 1 @10",
  ]);
});

test("clear removes what won by its stamp, and not what came last", async () => {
  const recorder = new Recorder("lwwset", ["a", "b"]);
  await recorder.remove("b", "x", { stamp: 1, message: 1 });
  await recorder.add("a", "x", { stamp: 5 });
  await recorder.deliver("a", 1);
  await recorder.clear("a", { stamps: [6] });
  await recorder.read("a", []);
  await recorder.close();
  assert.ok(commands(recorder).includes("a remove 1 @6"));
});

test("clear of another kind or with too few stamps is rejected", async () => {
  const recorder = new Recorder("counter", ["a"]);
  const unknown = /clear is not an operation of the kind counter: it is one of sets/;
  await assert.rejects(recorder.clear("a"), isNotRepresentable(unknown));
  await recorder.stop();
  const lww = new Recorder("lwwset", ["a"]);
  await lww.add("a", "x", { stamp: 1 });
  const few = /clear\('a'\): 0 stamps for the 1 elements .*\[ 'x' \]/;
  await assert.rejects(lww.clear("a"), isNotRepresentable(few));
  await lww.stop();
});

test("an error names the call and what was looked for", async () => {
  const report = async (recorder) => {
    for (const number of [1, 2, 3, 4, 5]) await recorder.increment("bob", { message: `m${number}` });
    await recorder.deliver("bob", "m7");
  };
  const known = new RegExp(
    "deliver\\('bob', 'm7'\\): no update was reported with the message 'm7'; " +
      "known are 'm1', 'm2', 'm3' and 2 more: report the update",
  );
  const cases = [
    [report, known],
    [(it) => it.merge("bob", [4]), /merge\('bob', \[ 4 \]\): no update .* 4; none is known/],
    [(it) => it.deliver("bob", []), /deliver\('bob', \[\]\): no update/],
    [(it) => it.read("bob", "many"), /read\('bob', 'many'\): a counter's read returned 'many'/],
    [(it) => it.read("carl", 1), /read\('carl', 1\): unknown replica 'carl': expected one of \[ 'bob' \]/],
    [(it) => it.increment(["bob"]), /unknown replica \[ 'bob' \]/],
    [(it) => it.write("bob", 4, 1), /write\('bob', 4, 1\): write is not an operation of the kind counter/],
    [(it) => it.update("bob", undefined), /update\('bob'\): an update of the kind counter needs its operation/],
  ];
  for (const [call, message] of cases) {
    const recorder = new Recorder("counter", ["bob"]);
    await assert.rejects(call(recorder), isNotRepresentable(message));
    await recorder.stop();
  }
});

test("a removal with wrong identifiers is told apart from a lost addition", async () => {
  const had = "and by the reports its replica had 1, 2";
  const cases = [
    [[2], `it names the identifiers 2, ${had}: the replica lost an addition`],
    [[1, 2, 3], `it names the identifiers 1, 2, 3, ${had}: a delivery was not`],
    [[], `it names the identifiers none, ${had}: the replica lost`],
  ];
  for (const [identifiers, message] of cases) {
    const recorder = new Recorder("orset", ["a", "b"], { window: 1 });
    await recorder.add("a", "x", { identifier: 1 });
    await recorder.add("a", "x", { identifier: 2 });
    await recorder.add("b", "x", { identifier: 3 });
    const failed = await recorder.remove("a", "x", { identifiers }).catch((error) => error);
    assert.ok(failed instanceof NotLinearizable && failed.message.includes(message), failed);
    await recorder.stop();
  }
});

test("bad arguments are errors in words", async () => {
  const cases = [
    [{ replicas: 0 }, /replicas=0: expected at least 1/],
    [{ replicas: [] }, /replicas=\[\]: expected at least/],
    [{ replicas: null }, /replicas=null, .* a whole number or a list/],
    [{ seeds: -1 }, /seeds=-1: expected/],
    [{ operations: -1 }, /operations=-1: expected at least 0/],
    [{ operations: "3" }, /operations='3'/],
    [{ replicas: true }, /replicas=true: expected at least 1/],
    [{ seeds: 1.5 }, /a whole number or a list/],
    [{ duplicate: true }, /unknown option 'duplicate': expected .*duplicates/],
  ];
  for (const [options, message] of cases) {
    const isExpected = (error) => error instanceof RangeError && message.test(error.message);
    await assert.rejects(checkRandom(Counter, "counter", options), isExpected);
  }
  for (const [make, message] of [
    [3, /makeReplica is 3: expected a class, or a function/],
    [() => undefined, /makeReplica\('a'\) returned undefined: expected a replica/],
    [async () => new Counter("a"), /makeReplica\('a'\) returned Promise .*: expected a replica/s],
  ]) {
    const isExpected = (error) => error instanceof TypeError && message.test(error.message);
    await assert.rejects(checkRandom(make, "counter"), isExpected);
  }
  const noList = isNotRepresentable(/the replicas are 0: expected a list of their names/);
  assert.throws(() => new Recorder("counter", 0), noList);
});

/** A set without removals. */
class GrowOnlySet {
  elements = new Set();

  add(element) {
    this.elements.add(element);
    return { element };
  }

  receive({ element }) {
    this.elements.add(element);
  }

  read() {
    return this.elements;
  }
}

/** A counter without decrements. */
class GrowOnlyCounter {
  number = 0;

  increment() {
    this.number += 1;
    return 1;
  }

  receive(message) {
    this.number += message;
  }

  read() {
    return this.number;
  }
}

test("a type that only grows needs no removal and the result says so", async () => {
  for (const [Replica, kind, unused] of [[GrowOnlySet, "orset", "remove"], [GrowOnlyCounter, "counter", "decrement"]]) {
    let result;
    const written = await captureStderr(async () => {
      result = await checkRandom(Replica, kind, { seeds: 20 });
    });
    assert.deepEqual([result.runs, result.unused], [20, [unused]]);
    assert.ok(written.includes(`checkRandom ${kind}: the type has no ${unused}, so it was not tried`));
  }
  assert.deepEqual((await checkRandom(OrSet, "orset", { seeds: 1 })).unused, []);
});

test("weights change how often a method is called", async () => {
  const removals = (weights) => {
    const traits = makeTraits(["add", "remove"], { weights });
    const plans = Array.from({ length: 20 }, (_, seed) => new Planner("lwwset", 3, 30, seed, traits).plan());
    return plans.flat().filter((it) => it.method === "remove").length;
  };
  assert.ok(removals({}) < 300);
  assert.ok(removals({ remove: 8 }) > 400);
  assert.equal(removals({ remove: 0 }), 0);
  assert.equal((await checkRandom(LwwSet, "lwwset", { seeds: 5, weights: { remove: 3 } })).runs, 5);
});

test("weights of unknown methods are rejected", async () => {
  for (const [weights, message] of [
    [{ clear: 1 }, /weights has 'clear': expected the methods of this type, add, remove/],
    [{ remove: -1 }, /expected numbers of at least 0/],
    [{ add: 0 }, /that of add above 0/],
  ]) {
    const isExpected = (error) => error instanceof RangeError && message.test(error.message);
    await assert.rejects(checkRandom(LwwSet, "lwwset", { weights }), isExpected);
  }
});

test("amounts are tried if the methods take them", async () => {
  const amounts = new Set();
  class Counting extends Counter {
    increment(by = 1) {
      amounts.add(by);
      return this.step(by);
    }

    decrement(by = 1) {
      return this.step(-by);
    }
  }
  assert.equal((await checkRandom(Counting, "counter", { seeds: 40 })).runs, 40);
  assert.ok([1, 2, 128, 256].every((it) => amounts.has(it)));
});

test("a parameter that is no amount is named", async () => {
  class Optional extends Counter {
    increment(amount = 1) {
      return this.step(amount);
    }
  }
  class Noted extends Counter {
    increment(by = 1, note = "") {
      return this.step(by, note);
    }

    decrement(by = 1, ...others) {
      return this.step(-by, others);
    }
  }
  class Uneven extends Counter {
    increment = (by = 1) => this.step(by);
  }
  class Unbraced extends Counter {
    increment = by => this.step(by, "note");
    decrement = by => this.step(-by, "note");
  }
  const cases = [
    ...[[Optional, "increment(amount)"], [Noted, "increment(note)"], [Uneven, "increment(by)"]],
    ...[[Unbraced, null], [Counter, null]],
  ];
  for (const [Replica, named] of cases) {
    const written = await captureStderr(async () => {
      assert.equal((await checkRandom(Replica, "counter", { seeds: 3 })).runs, 3);
    });
    const rule = "an amount is the first parameter of each update and is named `by`";
    const warning = `checkRandom counter: no argument was tried for ${named}: ${rule}`;
    assert.deepEqual(written.split("\n").filter((it) => it.includes("no argument")), named === null ? [] : [warning]);
  }
});

test("a required parameter that is no amount is rejected", async () => {
  class Amount extends Counter {
    increment(amount) {
      return this.step(amount);
    }
  }
  class Uneven extends Counter {
    increment = (by) => this.step(by);
  }
  class Unbraced extends Counter {
    increment = async amount => this.step(amount);
  }
  for (const [Replica, name] of [[Amount, "amount"], [Uneven, "by"], [Unbraced, "amount"]]) {
    const failed = await checkRandom(Replica, "counter").catch((fault) => fault);
    assert.ok(failed instanceof TypeError, failed);
    const expected = `increment requires the parameter ${name}, for which no argument is passed: an amount is `;
    assert.ok(failed.message.startsWith(expected) && failed.message.includes("`by`"), failed.message);
  }
  class Right extends Counter {
    increment = by => this.step(by);

    decrement(by) {
      return this.step(-by);
    }
  }
  assert.equal((await checkRandom(Right, "counter", { seeds: 3 })).runs, 3);
});
