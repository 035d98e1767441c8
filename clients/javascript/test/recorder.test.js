// Reports in the user's own names.
import assert from "node:assert/strict";
import { existsSync, readFileSync } from "node:fs";
import { test } from "node:test";
import { inspect } from "node:util";
import { NotRepresentable, MonitorExited, NotLinearizable, Recorder, Refused, write } from "../index.js";
import { EXPLAIN_PROGRAM, checkText, find } from "../src/program.js";

const NOW = 1_764_076_489_000; // A clock of milliseconds since 1970.
const commands = (recorder) => recorder.history().split("\n").slice(2, -1);
const needsExplanations = { skip: !existsSync(EXPLAIN_PROGRAM) };
const isNotRepresentable = (message) => (fault) => fault instanceof NotRepresentable && message.test(fault.message);

test("replicas and values have any names", async () => {
  const recorder = new Recorder("register", ["Ann's phone", 7, ["a", "pair"]]);
  await recorder.write("Ann's phone", { milk: 2 }.milk, [1, "Ann's phone"], { message: ["m", 1] });
  await recorder.deliver(7, ["m", 1]);
  await recorder.read(7, 2);
  await recorder.read(["a", "pair"], null);
  assert.equal((await recorder.close()).verdict, "yes");
  assert.deepEqual(commands(recorder), ["r0 write 1 @1", "r1 got 0", "r1 read 1", "r2 read none"]);
});

test("valid names are kept", async () => {
  const recorder = new Recorder("counter", ["r1", "Bob", "ann", "verdict"]);
  assert.match(recorder.history(), /replicas r1 r0 ann r2\n/);
  await recorder.close();
});

test("a list is read back in its order", async () => {
  const list = new Recorder("rga", ["ann", "bob"]);
  await list.insertAfter("ann", null, "h", [1, "ann"], { message: 1 });
  await list.insertAfter("ann", "h", "i", 2, { message: 2 });
  await list.merge("bob", [2, 1]);
  await list.remove("bob", "h");
  await list.read("bob", ["i"]);
  assert.equal((await list.close()).verdict, "yes");
  const rest = ["bob got 0", "bob got 1", "bob remove 1", "bob read 2"];
  assert.deepEqual(commands(list), ["ann after 0 1 @1", "ann after 1 2 @2", ...rest]);
});

test("a set may be read in any order", async () => {
  const set = new Recorder("lwwset", ["a"]);
  for (const [at, element] of ["x", "y", "z"].entries()) await set.add("a", element, { stamp: at + 1 });
  await set.remove("a", "y", { stamp: 4 });
  await set.read("a", new Set(["z", "x"]));
  assert.equal((await set.close()).verdict, "yes");
  assert.equal(commands(set).at(-1), "a read 1,3");
});

test("the value of an unwritten register can be chosen", async () => {
  const recorder = new Recorder("register", ["a"], { nothing: 0 });
  await recorder.read("a", 0);
  await recorder.write("a", null, 1);
  await recorder.read("a", null);
  await recorder.close();
  const other = new Recorder("register", ["a"]);
  await assert.rejects(other.write("a", undefined, 1), isNotRepresentable(/pass another `nothing`/));
  await other.stop();
});

test("large clocks are counted from the first one", async () => {
  for (const [now, back] of [[NOW, NOW - 5], [BigInt(NOW) * 1_000_000n, BigInt(NOW) * 1_000_000n - 5n]]) {
    const recorder = new Recorder("register", ["a", "b"]);
    await recorder.write("a", 1, [now, "a"], { message: 1 });
    await recorder.write("b", 2, [back, "b"]);
    await recorder.deliver("b", 1);
    await recorder.read("b", 1);
    assert.equal((await recorder.close()).verdict, "yes");
    assert.equal(commands(recorder)[0], "a write 1 @268435456");
  }
});

test("a read that returns no list is rejected", async () => {
  for (const kind of ["lwwset", "orset", "rga"]) {
    const recorder = new Recorder(kind, ["a", "b"]);
    await assert.rejects(recorder.read("a", undefined), /a read returned undefined: expected an array/);
  }
});

test("clocks that cannot be represented are rejected", async () => {
  const wrong = [
    [[NOW, NOW - 2 ** 28], /too early/],
    [[NOW, NOW + 2 ** 32], /too late/],
    [[1, 2 ** 32], /too late/],
    [[0], /too early/],
    [[1.5], /not a whole number/],
    [["noon"], /not a whole number/],
    [[[1, "b"]], /names another replica: expected 'a'/],
    [[undefined], /the stamp is missing/],
  ];
  for (const [clocks, message] of wrong) {
    const recorder = new Recorder("register", ["a", "b"]);
    const work = async () => {
      for (const [number, clock] of clocks.entries()) await recorder.write("a", number, clock);
    };
    await assert.rejects(work(), isNotRepresentable(message));
    await assert.rejects(recorder.read("a", 1), NotRepresentable);
    await recorder.stop();
  }
});

test("what is known only after the act is a function", async () => {
  const recorder = new Recorder("register", ["a", "b"]);
  const sent = await recorder.update("a", (it) => write(it.value, it.stamp), {
    act: () => ({ value: 3, stamp: [9, "a"], id: "m" }),
    message: (it) => it.id,
  });
  await recorder.write("a", 4, (clock) => clock, { act: () => 10 });
  await recorder.deliver("b", (it) => it.id, { act: () => sent });
  assert.equal(await recorder.read("b", () => 3), 3);
  assert.equal((await recorder.close()).verdict, "yes");
});

test("an asynchronous act is one step with its report", async () => {
  const recorder = new Recorder("counter", ["a"]);
  let number = 0;
  const slow = async () => {
    const before = number;
    await new Promise((resolve) => setTimeout(resolve, 5));
    number = before + 1;
  };
  const reads = [1, 2, 3].flatMap(() => [recorder.increment("a", { act: slow }), recorder.read("a", () => number)]);
  assert.deepEqual(await Promise.all(reads), [undefined, 1, undefined, 2, undefined, 3]);
  assert.equal((await recorder.close()).verdict, "yes");
});

test("an act that fails is not reported", async () => {
  const recorder = new Recorder("counter", ["a"]);
  const broken = [() => { throw new RangeError("sync"); }, async () => { throw new RangeError("awaited"); }];
  for (const act of broken) await assert.rejects(recorder.increment("a", { act }), RangeError);
  await recorder.read("a", 0);
  assert.equal((await recorder.close()).verdict, "yes");
});

test("repeated deliveries and own messages are not reported", async () => {
  const recorder = new Recorder("counter", ["a", "b"]);
  await recorder.increment("a", { message: 1 });
  for (const replica of ["a", "b", "b"]) await recorder.deliver(replica, 1);
  await recorder.close();
  assert.deepEqual(commands(recorder), ["a inc", "b got 0"]);
});

test("a merge delivers what the sender had seen at that moment", async () => {
  const recorder = new Recorder("counter", ["a", "b", "c"]);
  await recorder.increment("a");
  await recorder.merge("b", recorder.seen("a"));
  await recorder.decrement("b");
  const state = recorder.seen("b");
  await recorder.increment("b");
  await recorder.merge("c", state);
  await recorder.read("c", 0);
  assert.equal((await recorder.close()).verdict, "yes");
});

test("identifiers that the type does not expose", async () => {
  const recorder = new Recorder("orset", ["a", "b"]);
  await recorder.add("a", "milk", { message: 1 });
  await recorder.deliver("b", 1);
  await recorder.add("b", "milk", { message: 2 });
  await recorder.remove("a", "milk", { message: 3 });
  await recorder.deliver("b", 3);
  await recorder.deliver("a", 2);
  for (const replica of ["a", "b"]) await recorder.read(replica, ["milk"]);
  assert.equal((await recorder.close()).verdict, "yes");
  assert.ok(commands(recorder).includes("a remove 1 #1"));
});

test("identifiers that the type exposes", async () => {
  const recorder = new Recorder("orset", ["a"], { window: 1 });
  await recorder.add("a", "milk", { identifier: ["a", 1] });
  await recorder.add("a", "milk", { identifier: ["a", 2] });
  const removal = recorder.remove("a", "milk", { identifiers: [["a", 2]] });
  await assert.rejects(removal, (it) => it instanceof NotLinearizable && it.message.includes("under [ 'a', 2 ]"));
  await recorder.stop();
});

test("many callers with a replica each", async () => {
  const names = ["a", "b", "c", "d"];
  const counters = Object.fromEntries(names.map((name) => [name, 0]));
  const inboxes = Object.fromEntries(names.map((name) => [name, []]));
  const recorder = new Recorder("counter", names);
  // Without steps, the others could receive a message of `a` before its act has ended and is reported.
  const increment = async (name, number) => {
    counters[name] += 1;
    for (const inbox of Object.values(inboxes)) inbox.push([name, number]);
    if (name === "a") await new Promise((resolve) => setImmediate(resolve));
  };
  const receive = (name) => {
    const message = inboxes[name].shift();
    counters[name] += message[0] === name ? 0 : 1;
    return message;
  };
  const work = async (name) => {
    for (let number = 0; number < 100; number += 1) {
      await recorder.increment(name, { act: () => increment(name, number), message: [name, number] });
      await recorder.deliver(name, (message) => message, { act: () => receive(name) });
      await recorder.read(name, () => counters[name]);
    }
  };
  await Promise.all(names.map(work));
  const report = await recorder.close();
  assert.deepEqual([report.verdict, report.refused], ["yes", 0]);
});

test("a delivery of an unknown message is rejected", async () => {
  const recorder = new Recorder("counter", ["a"]);
  await assert.rejects(recorder.deliver("a", 5), isNotRepresentable(/message 5; none is known/));
  await recorder.stop();
});

test("an operation of another kind is rejected", async () => {
  const recorder = new Recorder("counter", ["a"]);
  const unknown = /write is not an operation of the kind counter: expected increment or decrement/;
  await assert.rejects(recorder.write("a", 5, 1), isNotRepresentable(unknown));
  await recorder.stop();
});

test("a kind that does not exist is rejected", () => {
  assert.throws(() => new Recorder("map", ["a"]), isNotRepresentable(/unknown kind 'map': expected counter, /));
});

test("a joining replica has the updates of its source", async () => {
  const recorder = new Recorder("counter", ["Ann", "bob"]);
  await recorder.increment("Ann", { message: 1 });
  await recorder.deliver("bob", 1);
  await recorder.increment("Ann", { message: 2 });
  const early = recorder.seen("bob");
  assert.equal(await recorder.join("Carol", "bob", { act: async () => "a copy" }), "a copy");
  await recorder.read("Carol", 1);
  await recorder.deliver("Carol", 1);
  await recorder.merge("Carol", early);
  await recorder.increment("Carol", { message: 3 });
  await recorder.merge("Ann", recorder.seen("Carol"));
  await recorder.join(["a", "pair"], "Ann");
  await recorder.deliver(["a", "pair"], 2);
  await recorder.read(["a", "pair"], 3);
  await recorder.deliver("Carol", 2);
  await recorder.read("Carol", 3);
  assert.equal((await recorder.close()).verdict, "yes");
  const first = ["r0 inc", "bob got 0", "r0 inc", "join r1 bob", "r1 read 1", "r1 inc", "r0 got 3"];
  const then = ["join r2 r0", "r2 read 3", "r1 got 1", "r1 read 3"];
  assert.deepEqual(commands(recorder), [...first, ...then]);
  assert.match(recorder.history(), /^RAH 2 counter\nreplicas r0 bob\n/);
});

test("a valid name is kept if it is free", async () => {
  const recorder = new Recorder("counter", ["Ann"]);
  await recorder.join("carol", "Ann");
  await recorder.join("r0", "carol");
  assert.equal((await recorder.close()).verdict, "yes");
  assert.deepEqual(commands(recorder), ["join carol r0", "join r1 carol"]);
});

test("a joining replica has a copy of the identifiers of its source", async (t) => {
  for (const element of ["milk", 7, ["a", "pair"]]) {
    await t.test(inspect(element), async () => {
      const recorder = new Recorder("orset", ["a"], { window: 1 });
      await recorder.add("a", element);
      await recorder.join("b", "a");
      // Later additions and removals of one of them do not change the other one.
      await recorder.add("a", element, { message: 2 });
      await recorder.remove("b", element, { message: 3 });
      await recorder.deliver("a", 3);
      await recorder.read("a", [element]);
      await recorder.join("c", "a");
      await recorder.remove("a", element, { message: 4 });
      await recorder.read("c", [element]);
      await recorder.remove("c", element);
      await recorder.deliver("b", 2);
      await recorder.read("b", [element]);
      assert.equal((await recorder.close()).verdict, "yes");
      const removals = commands(recorder).filter((it) => it.includes("remove"));
      assert.deepEqual(removals, ["b remove 1 #1", "a remove 1 #2", "c remove 1 #2"]);
    });
  }
});

test("at equal clocks the replica that joined wins", async () => {
  const recorder = new Recorder("register", ["z"]);
  await recorder.join("a", "z");
  await recorder.write("a", 1, [1, "a"], { message: 1 });
  await recorder.write("z", 2, [1, "z"]);
  await recorder.deliver("z", 1);
  await recorder.read("z", 1);
  assert.equal((await recorder.close()).verdict, "yes");
});

test("at most sixty-four replicas take part", async () => {
  const numbers = Array.from({ length: 65 }, (_, number) => number);
  const recorder = new Recorder("counter", numbers.slice(0, 63));
  await recorder.increment(0);
  await recorder.join(63, 0);
  await recorder.read(63, 1);
  await recorder.read(62, 0);
  const act = () => assert.fail("the act was run");
  await assert.rejects(recorder.join(64, 0, { act }), isNotRepresentable(/64 cannot join: the history has 64/));
  await recorder.read(63, 1);
  assert.equal((await recorder.close()).verdict, "yes");
  assert.throws(() => new Recorder("counter", numbers), isNotRepresentable(/1 to 64 replicas/));
});

test("an impossible join is rejected before the act, and the history continues", async () => {
  const recorder = new Recorder("counter", ["a", "b"]);
  const act = () => assert.fail("the act was run");
  for (const [replica, source, message] of [["a", "b", /'a' cannot join/], ["c", "d", /unknown replica 'd'/]]) {
    await assert.rejects(recorder.join(replica, source, { act }), isNotRepresentable(message));
  }
  await recorder.join("c", "b");
  await recorder.read("c", 0);
  assert.equal((await recorder.close()).verdict, "yes");
  assert.deepEqual(commands(recorder), ["join c b", "c read 0"]);
});

test("a violation after a join is reported in the user's names", async () => {
  const recorder = new Recorder("counter", ["Ann", "Bob"], { window: 1 });
  await recorder.join("Carol", "Bob");
  await recorder.increment("Ann", { message: "up" });
  await recorder.deliver("Bob", "up");
  const failed = await recorder.read("Carol", 1).catch((fault) => fault);
  assert.ok(failed instanceof NotLinearizable);
  assert.match(failed.message, /join r2 r1 +'Carol' joins with a copy of 'Bob'\n/);
  assert.ok(failed.message.includes("'Bob' receives message 'up', label 0 ('Ann' increments)"));
  await recorder.stop();
});

/** Returns the failure of a history in which a read lacks an element, with this window. */
async function failed(window) {
  const recorder = new Recorder("lwwset", ["Ann", "Bob"], { window });
  const work = async () => {
    await recorder.add("Ann", "milk", { stamp: [NOW, "Ann"], message: "m" });
    await recorder.deliver("Bob", "m");
    await recorder.read("Bob", []);
    await recorder.settle();
  };
  const failure = await work().catch((fault) => fault);
  assert.ok(failure instanceof NotLinearizable, failure);
  await assert.rejects(recorder.read("Ann", ["milk"]), NotLinearizable);
  await assert.rejects(recorder.close(), NotLinearizable);
  return failure;
}

test("a violation is reported in the user's names with its file", async (t) => {
  for (const window of [1, 2, 4096]) {
    await t.test(`window ${window}`, async () => {
      const { message, operation, cause, history } = await failed(window);
      assert.deepEqual([operation, cause], ["'Bob' reads []", "query"]);
      assert.ok(message.includes(`'Ann' adds 'milk' at clock ${NOW}`));
      assert.ok(message.includes("'Bob' receives message 'm', label 0 ('Ann' adds 'milk'"));
      const { status, replies } = checkText(find(), readFileSync(history));
      assert.deepEqual([status, replies.at(-1)], [1, "end no 1 query"]);
    });
  }
});

test("a delivery before its cause is refused", async () => {
  const recorder = new Recorder("counter", ["a", "b", "c"]);
  await recorder.increment("a", { message: 1 });
  await recorder.deliver("b", 1);
  await recorder.increment("b", { message: 2 });
  await recorder.deliver("c", 2);
  const failed = await recorder.settle().catch((fault) => fault);
  assert.ok(failed instanceof Refused && failed.cause === "not-causal 0");
  const lacking = "refused, message 1, label 0 ('a' increments) has to be delivered first";
  assert.ok(failed.message.includes(lacking), failed.message);
  await recorder.stop();
});

test("a merge is reported with its sender", async () => {
  const recorder = new Recorder("counter", ["Ann", "Bob"], { window: 1 });
  await recorder.increment("Ann", { message: "up" });
  await recorder.merge("Bob", recorder.seen("Ann"));
  await recorder.merge("Bob", recorder.seen("Ann"));
  const merges = /'Bob' merges the state of 'Ann'\n.* got 0 .*label 0.*\n +'Bob' merges the state of 'Ann'\n.* read 2/;
  await assert.rejects(recorder.read("Bob", 2), merges);
  await recorder.stop();
});

test("a violation is reported with the expected result", needsExplanations, async () => {
  const { message } = await failed(1);
  assert.ok(message.includes("\nexpected: 'Bob' reads ['milk']\n"), message);
  const without = "explained if this had not been delivered: 'Bob' receives message 'm', label 0 ('Ann' adds 'milk'";
  assert.ok(message.includes(without), message);
});

test("a missing delivery is suggested", needsExplanations, async () => {
  const recorder = new Recorder("counter", ["Ann", "Bob"], { window: 1 });
  await recorder.increment("Ann", { message: "up" });
  await recorder.increment("Bob");
  const { message } = await recorder.read("Bob", 2).catch((fault) => fault);
  assert.ok(message.includes("\nexpected: 'Bob' reads 1\n"), message);
  const change = "\nexplained if message 'up', label 0 ('Ann' increments) had been delivered before\n";
  assert.ok(message.includes(change), message);
  await recorder.stop();
});

test("whether another order explains a violation is reported", needsExplanations, async () => {
  const another = "another order explains what was reported: suspect a clock, a tie-break or a delivery";
  for (const [value, row] of [[7, another], [8, "no order explains what was reported, whatever the clocks are"]]) {
    const recorder = new Recorder("register", ["Ann", "Bob"], { window: 1 });
    await recorder.write("Ann", 7, [1, "Ann"], { message: "seven" });
    await recorder.write("Bob", 9, [2, "Bob"]);
    await recorder.deliver("Bob", "seven");
    const { message } = await recorder.read("Bob", value).catch((fault) => fault);
    assert.ok(message.includes(`\nexpected: 'Bob' reads 9\n${row}\n`), message);
    await recorder.stop();
  }
});

test("changes that do not help are counted", needsExplanations, async () => {
  const cases = [
    [["Bob", "Ann"], "the one change that was tried does not explain it"],
    [["Bob", "Ann", "Cid"], "none of the 2 changes that were tried explains it"],
  ];
  for (const [replicas, row] of cases) {
    const recorder = new Recorder("counter", replicas, { window: 1 });
    for (const replica of replicas.slice(1)) await recorder.increment(replica, { message: replica });
    const { message } = await recorder.read("Bob", 5).catch((fault) => fault);
    assert.ok(message.includes(`\n${row}\n`), message);
    await recorder.stop();
  }
});

test("a removal that names too few identifiers is explained", async () => {
  const recorder = new Recorder("orset", ["a"], { window: 1 });
  await recorder.add("a", "x", { identifier: 1 });
  await recorder.add("a", "x", { identifier: 2 });
  await assert.rejects(recorder.remove("a", "x", { identifiers: [2] }), /leave the identifiers out/);
  await recorder.stop();
});

test("the last sixteen lines are shown", async () => {
  for (const before of [14, 15, 16, 40]) {
    const recorder = new Recorder("counter", ["a"], { window: 1 });
    for (let number = 0; number < before; number += 1) await recorder.increment("a");
    const { message } = await recorder.read("a", 0).catch((fault) => fault);
    const shown = message.split("; the last lines:\n")[1].split("\n").map((it) => it.split("  ")[2]);
    assert.deepEqual(shown, [...Array(Math.min(before, 15)).fill("a inc"), "a read 0"]);
    await recorder.stop();
  }
});

test("an act that cannot be reported ends the history", async () => {
  const recorder = new Recorder("register", ["a"]);
  await assert.rejects(recorder.write("a", 1, "noon"), NotRepresentable);
  await assert.rejects(recorder.read("a", 1), NotRepresentable);
  await assert.rejects(recorder.close(), NotRepresentable);
});

test("a program that is not a monitor is reported", async () => {
  const recorder = new Recorder("counter", ["a"], { program: "cat" });
  await recorder.increment("a");
  await assert.rejects(recorder.settle(), MonitorExited);
  await recorder.stop();
});
