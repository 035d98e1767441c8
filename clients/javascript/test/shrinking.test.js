// Shrinking: for each strategy a failed run that no other strategy shrinks.
//
// The runs are simulated: a run fails exactly where a condition on its steps holds. Each step has a letter of its own,
// so a run is named by its letters.
import assert from "node:assert/strict";
import { test } from "node:test";
import { shrink } from "../src/shrinking.js";
import { makeStep } from "../src/steps.js";

const NO = ["no"];
const update = (letter, number, replica = 0) => makeStep("update", replica, number, letter);
const deliver = (letter, number, replica) => makeStep("deliver", replica, number, letter);
const merge = (letter, replica, source) => makeStep("merge", replica, source, letter);
const read = (letter, replica = 0) => makeStep("read", replica, 0, letter);
/** Returns an update for each letter, all at one replica. */
const updates = (letters) => [...letters].map((letter, number) => update(letter, number));
const lettersOf = (steps) => steps.map((it) => it.method).join("");

/** Returns the steps that a real run executes: each update is delivered once, and never to its own replica. */
function executable(steps) {
  const delivered = new Set();
  return steps.filter(({ action, replica, number }) => {
    if (action === "merge") return replica !== number;
    if (action !== "update" && action !== "deliver") return true;
    const isNew = !delivered.has(`${replica} ${number}`);
    delivered.add(`${replica} ${number}`);
    return isNew;
  });
}

/** Returns the letters of the shrunk run. `causeOf` returns the cause for which a run fails, or null. */
async function smallest(steps, causeOf) {
  const run = async (candidate) => {
    const executed = executable(candidate);
    const cause = causeOf(executed);
    return cause === null ? null : { cause, steps: executed };
  };
  const failure = await run(steps);
  assert.notEqual(failure, null, "the whole run does not fail");
  return lettersOf((await shrink(failure, run)).steps);
}

/** Returns a condition: a run fails if it has all needed steps, and all or none of each of these groups. */
const failsWith = (needed, ...together) => (steps) => {
  const has = (it) => lettersOf(steps).includes(it);
  const isWhole = (group) => [...group].every(has) || ![...group].some(has);
  return [...needed].every(has) && together.every(isWhole) ? NO : null;
};

test("a replica is removed with all that it sent", async () => {
  const steps = [
    ...[update("a", 1), update("p", 2, 1), read("b"), deliver("q", 2, 0)],
    ...[read("c"), merge("r", 0, 1), read("d"), read("s", 1)],
  ];
  assert.equal(await smallest(steps, failsWith("abcd", "pqrs")), "abcd");
});

test("two replicas become one", async () => {
  // A read fails if its replica has the update and is one of these.
  const causeOf = (replicas) => (steps) => {
    const having = steps.filter((it) => it.action !== "read" && replicas.includes(it.replica)).map((it) => it.replica);
    const readsIt = steps.some((it) => it.action === "read" && having.includes(it.replica));
    return readsIt && lettersOf(steps).includes("a") ? NO : null;
  };
  for (const copy of [deliver("b", 1, 1), merge("b", 1, 0)]) {
    for (const replicas of [[0, 1], [1]]) {
      assert.equal(await smallest([update("a", 1), copy, read("c", 1)], causeOf(replicas)), "ac");
    }
  }
});

test("a half, a quarter and a single step are removed", async () => {
  assert.equal(await smallest(updates("abcdefgh"), failsWith("abcd", "efgh")), "abcd");
  assert.equal(await smallest(updates("abcdefghijklmnop"), failsWith("abcdefghmnop", "ijkl")), "abcdefghmnop");
  assert.equal(await smallest([update("a", 1), read("b"), read("c")], failsWith("ac")), "ac");
});

test("an update is removed with its deliveries", async () => {
  const steps = [update("p", 1), read("a"), deliver("q", 1, 1), read("b", 1), deliver("r", 1, 2), read("c", 2)];
  assert.equal(await smallest(steps, failsWith("abc", "pqr")), "abc");
});

test("a message arrives early only if that is needed", async () => {
  const steps = [update("a", 1), update("b", 2), deliver("c", 2, 1), deliver("d", 1, 1)];
  assert.equal(await smallest(steps, failsWith("abcd")), "abdc");
  const failsOutOfOrder = (candidate) => {
    const letters = lettersOf(candidate);
    return [..."abcd"].every((it) => letters.includes(it)) && letters.indexOf("c") < letters.indexOf("d") ? NO : null;
  };
  assert.equal(await smallest(steps, failsOutOfOrder), "abcd");
});

test("a state is merged late only if that is needed", async () => {
  const late = [makeStep("snapshot", 0, 1, "b"), read("c"), makeStep("merge_snapshot", 1, 1, "d")];
  const steps = [update("a", 1), ...late];
  const failsWithAState = (candidate) => {
    const actions = candidate.map((it) => it.action);
    const isLate = actions.includes("snapshot") && actions.includes("merge_snapshot");
    const letters = lettersOf(candidate);
    return (actions.includes("merge") || isLate) && letters.includes("a") && letters.includes("c") ? NO : null;
  };
  assert.equal(await smallest(steps, failsWithAState), "ac");
  assert.equal(await smallest(steps, failsWith("abcd")), "abcd");
});

test("two steps are removed together", async () => {
  assert.equal(await smallest(updates("paq"), failsWith("a", "pq")), "a");
  assert.equal(await smallest(updates("parbqs"), failsWith("ab", "pq", "rs")), "ab");
});

test("two steps of sixteen are tried, and of seventeen not", async () => {
  const needed = "abcdefghijklmn";
  assert.equal(await smallest(updates(`p${needed}q`), failsWith(needed, "pq")), needed);
  assert.equal(await smallest(updates(`p${needed}oq`), failsWith(`${needed}o`, "pq")), `p${needed}oq`);
});

test("the strategies are tried again after a later one succeeded", async () => {
  const causeOf = (steps) => {
    // The half at the end can be removed only after two others.
    const letters = lettersOf(steps);
    return letters.includes("w") || !letters.includes("p") ? failsWith("abcd", "pq", "wxyz")(steps) : null;
  };
  assert.equal(await smallest(updates("paqbcdwxyz"), causeOf), "abcd");
});

const numbersIn = (steps) => steps.flatMap((it) => it.arguments).filter((it) => it !== null);

/** Returns the numbers in the shrunk run. A run fails if it has all steps and `fails` holds for its numbers. */
async function lowered(steps, fails) {
  const run = async (candidate) =>
    candidate.length === steps.length && fails(numbersIn(candidate)) ? { cause: NO, steps: candidate } : null;
  return numbersIn((await shrink({ cause: NO, steps }, run)).steps);
}

test("amounts are lowered", async () => {
  const counting = (method, amount) => makeStep("update", 0, amount, method, [amount]);
  const steps = [counting("increment", 256), counting("decrement", 128), makeStep("read", 0)];
  assert.deepEqual(await lowered(steps, () => true), [1, 1]);
  assert.deepEqual(await lowered(steps, (amounts) => amounts[0] > 100), [101, 1]);
  assert.deepEqual(await lowered(steps, (amounts) => amounts[0] - amounts[1] >= 128), [129, 1]);
  assert.deepEqual(await lowered(steps, (amounts) => amounts[1] >= 128), [1, 128]);
});

test("values and elements are lowered", async () => {
  const steps = [
    makeStep("update", 0, 1, "insertAfter", [null, 65_536]), makeStep("update", 0, 2, "insertAfter", [65_536, 2 ** 31]),
    makeStep("update", 0, 3, "remove", [65_536]),
  ];
  assert.deepEqual(await lowered(steps, () => true), [1, 1, 2, 1]);
  // Where one value has to be large, it is the smallest such boundary, and the others are small.
  assert.deepEqual(await lowered(steps, (values) => values[2] > 255), [1, 1, 256, 1]);
  assert.deepEqual(await lowered(steps, (values) => Math.min(...values) >= 256), [65_535, 65_535, 256, 65_535]);
});

test("a run that fails for another cause is not accepted", async () => {
  const causeOf = (steps) => (lettersOf(steps).includes("b") ? NO : ["refused", "stamp-taken"]);
  assert.equal(await smallest(updates("abc"), causeOf), "b");
});
