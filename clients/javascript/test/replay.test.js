// Failures that are run again: seeds with versions, stored steps, regression tests, and runs that do not repeat.
import assert from "node:assert/strict";
import { spawnSync } from "node:child_process";
import { mkdirSync, mkdtempSync, readFileSync, readdirSync, rmSync, writeFileSync } from "node:fs";
import { tmpdir } from "node:os";
import { extname, join } from "node:path";
import { test } from "node:test";
import * as yehatu from "../index.js";
import { FlakyRun, NotLinearizable, ReplicaRaised, ReportFailed, checkRandom, replay } from "../index.js";
import { checkText, findForManyRuns } from "../src/program.js";
import { PLANTED, saving } from "./network_replicas.js";
import { OBSERVABLE } from "./planted.js";
import { Asynchronous, Flaky, Stuttering, Unrepaired } from "./replayed.js";
import { Counter, LwwSet, Register, Rga } from "./replicas.js";

const TIES = OBSERVABLE["ties are broken by arrival"].register;
const urlOf = (file) => JSON.stringify(new URL(file, import.meta.url).href);
// The failures that were found before, since each is looked for and shrunk anew.
const known = new Map();

/** Returns the error of the first run that fails. */
const failureOf = (Replica, kind, options) =>
  checkRandom(Replica, kind, { seeds: 200, ...options }).then(
    () => assert.fail("no run fails"),
    (error) => (error instanceof ReportFailed ? error : Promise.reject(error)),
  );

/** Returns the error of the first run that fails, once found. */
function knownFailure(Replica, kind, options) {
  if (!known.has(Replica)) known.set(Replica, failureOf(Replica, kind, options));
  return known.get(Replica);
}

/** Returns the regression test at the end of a message. */
const sourceOf = (failed) =>
  failed.message.split("\nthe same as a test:\n\n")[1].split("\n").map((it) => it.slice(4)).join("\n");

/** Runs this with a new folder, which is removed afterwards. */
async function inFolder(act) {
  const folder = mkdtempSync(join(tmpdir(), "yehatu_"));
  try {
    return await act(folder);
  } finally {
    rmSync(folder, { recursive: true });
  }
}

/** Runs a regression test in a process of its own. `imports` replaces the comment on where the class comes from. */
const runSource = (source, imports) =>
  inFolder((folder) => {
    const path = join(folder, "regression.mjs");
    const whole = source.replace(/^\/\/ .*$/m, imports).replace('"yehatu"', urlOf("../index.js"));
    writeFileSync(path, whole);
    const { NODE_TEST_CONTEXT: _, ...env } = process.env;
    return spawnSync(process.execPath, ["--test-reporter=tap", path], { encoding: "utf8", env });
  });

const STORED_BY_PYTHON = JSON.stringify({
  version: 1, seed: "2-3", kind: "rga", replicas: ["a", "b"],
  profile: { delivery: "causal", duplicates: false, late_states: false, restarts: false },
  steps: [
    ["update", 0, 1, "insert_after", [null, 1]], ["update", 0, 2, "insert_after", [null, 128]],
    ["deliver", 1, 1, "", []], ["read", 0, 0, "", []], ["read", 1, 0, "", []],
  ],
  cause: ["no"], history: "",
});
const historyOf = (failed) => readFileSync(failed.history, "utf8");

test("a seed with its version runs the same plan", async () => {
  const failed = await knownFailure(TIES, "register");
  const [, seed] = /seed (.*?),/.exec(failed.message);
  assert.match(seed, /^2-\d+$/);
  for (const again of [[seed], [Number(seed.slice(2))]]) {
    assert.equal(historyOf(await failureOf(TIES, "register", { seeds: again })), historyOf(failed));
  }
});

test("a seed of another version is rejected", async () => {
  const cases = [
    ["1-17", /of version 1 of the planner, and this is version 2, .* with replay\(/],
    ["3-1", /of version 3 of the planner/],
    ["17", /the seed '17' is unknown/],
    ["2-x", /the seed '2-x' is unknown/],
    [1.5, /the seed 1.5 is unknown/],
    [true, /the seed true is unknown/],
  ];
  for (const [seed, message] of cases) {
    const isExpected = (error) => error instanceof RangeError && message.test(error.message);
    await assert.rejects(checkRandom(Counter, "counter", { seeds: [seed] }), isExpected);
  }
});

test("a failure is stored and fails again", async () => {
  const failed = await knownFailure(TIES, "register");
  assert.equal(failed.steps, failed.history.replace(/\.rah$/, ".json"));
  const stored = JSON.parse(readFileSync(failed.steps, "utf8"));
  const keys = ["version", "seed", "kind", "replicas", "profile", "steps", "cause", "history", "operation"];
  assert.deepEqual(Object.keys(stored), keys);
  assert.deepEqual([stored.version, stored.kind, stored.cause], [1, "register", ["no"]]);
  assert.deepEqual([stored.history, stored.operation], [historyOf(failed), failed.operation]);
  const again = await replay(TIES, failed.steps).catch((error) => error);
  assert.ok(again instanceof NotLinearizable, again);
  assert.ok(again.message.startsWith(`the stored run of seed ${stored.seed} still fails: '`));
  assert.equal(again.operation, failed.operation);
  // The Python client writes such a file.
  await inFolder(async (folder) => {
    const path = join(folder, "failure.json");
    writeFileSync(path, STORED_BY_PYTHON);
    assert.equal(await replay(Rga, path), 5);
    await assert.rejects(replay(OBSERVABLE["children stand in rising order"].rga, path), /seed 2-3 still fails: 'a'/);
  });
});

test("a class that was repaired passes the stored run", async () => {
  const failed = await knownFailure(TIES, "register");
  assert.equal(await replay(Register, failed.steps), 4);
});

test("steps that the class cannot execute are left out", async () => {
  const { Replica, kind } = PLANTED.forgets_its_clock;
  const failed = await knownFailure(Replica, kind);
  const stored = JSON.parse(readFileSync(failed.steps, "utf8"));
  assert.equal(await replay(saving(Register), failed.steps), stored.steps.length);
  // Without save and load nothing restarts, and nothing is saved.
  class OfNoRestart extends Register {}
  const left = stored.steps.filter(([action]) => action !== "restart" && action !== "save");
  await inFolder(async (folder) => {
    const path = join(folder, "failure.json");
    writeFileSync(path, JSON.stringify({ ...stored, profile: { ...stored.profile, restarts: false } }));
    assert.equal(await replay(OfNoRestart, path), left.length);
  });
  const again = await knownFailure(Unrepaired, "register");
  await assert.rejects(replay(Unrepaired, again.steps), /still fails/);
  await assert.rejects(replay(() => ({}), failed.steps), /the class has none of the methods/);
});

test("a run that fails in another way says so", async () => {
  class Raising extends Register {
    receive() {
      throw new RangeError("else");
    }
  }
  const failed = await knownFailure(TIES, "register");
  const isExpected = (error) =>
    error instanceof ReplicaRaised && /fails in another way \(raised RangeError, and then no\)/.test(error.message);
  await assert.rejects(replay(Raising, failed.steps), isExpected);
});

test("a failure is stored at a given path", () =>
  inFolder(async (folder) => {
    const path = join(folder, "register.json");
    const failed = await failureOf(TIES, "register", { failure: path });
    assert.deepEqual([failed.steps, readdirSync(folder).sort()], [path, ["register.json", "register.rah"]]);
    await assert.rejects(replay(TIES, path), NotLinearizable);
  }));

test("a path that cannot be written is rejected before the runs", () =>
  inFolder(async (folder) => {
    const [missing, file] = [join(folder, "no", "such"), join(folder, "file")];
    writeFileSync(file, "");
    mkdirSync(join(folder, "history.rah"));
    let made = 0;
    const make = (name) => {
      made += 1;
      return new TIES(name);
    };
    for (const [path, problem] of [
      [join(missing, "x.json"), `the folder '${missing}' does not exist, so no failure could be stored: create it, or`],
      [join(file, "x.json"), `the folder '${file}' is no folder`], ["", "expected the path of a file"],
      [folder, "is a folder: expected the path of a file"],
      [join(folder, "history.json"), "history.rah' is a folder: expected"],
    ]) {
      const failed = await checkRandom(make, "register", { failure: path }).catch((fault) => fault);
      assert.ok(failed instanceof RangeError, failed);
      assert.ok(failed.message.startsWith(`failure: '${path}': `) && failed.message.includes(problem), failed.message);
    }
    assert.deepEqual([readdirSync(folder).sort(), made], [["file", "history.rah"], 0]);
  }));

test("a file that is no failure is rejected", async () => {
  const good = JSON.parse(readFileSync((await knownFailure(TIES, "register")).steps, "utf8"));
  const cases = [
    ["RAH 2 counter", /is not a stored failure: .*; expected the JSON that checkRandom wrote/],
    ["[]", /it lacks version, seed, kind/],
    [JSON.stringify({ ...good, version: 2 }), /has version 2 of the format, and this client reads 1/],
    [JSON.stringify({ ...good, steps: [[1]] }), /step 1 is \[ 1 \]: expected a list of five values/],
    [JSON.stringify({ ...good, steps: [["jump", 0, 0, "", []]] }), /step 1 has the action 'jump'/],
    [JSON.stringify({ ...good, steps: [["read", 7, 0, "", []]] }), /step 1 is of replica 7, and there are 3/],
    [JSON.stringify({ ...good, profile: { delivery: "fifo" } }), /has the delivery 'fifo'/],
  ];
  await inFolder(async (folder) => {
    const path = join(folder, "failure.json");
    for (const [text, message] of cases) {
      writeFileSync(path, text);
      const isExpected = (error) => error instanceof RangeError && message.test(error.message);
      await assert.rejects(replay(TIES, path), isExpected);
    }
  });
});

test("passing runs leave no files", () =>
  inFolder(async (folder) => {
    const before = process.env.TMPDIR;
    process.env.TMPDIR = folder;
    try {
      await checkRandom(Counter, "counter", { seeds: 20 });
      const recorder = new yehatu.Recorder("counter", ["a"]);
      await recorder.increment("a");
      await recorder.close();
      assert.deepEqual(readdirSync(folder), []);
      await failureOf(TIES, "register");
      assert.deepEqual(readdirSync(folder).map((it) => extname(it)).sort(), [".json", ".rah"]);
    } finally {
      if (before === undefined) delete process.env.TMPDIR;
      else process.env.TMPDIR = before;
    }
  }));

test("the history is printed once", async () => {
  const { message } = await knownFailure(TIES, "register");
  assert.equal(message.split("RAH 2 register").length, 2);
  assert.equal(message.split("\n").filter((it) => it.includes(" write ")).length, 2);
});

test("the middle of a long history is left out", async () => {
  const failed = await knownFailure(PLANTED.overflows_at_seven_bits.Replica, "counter");
  assert.match(failed.message, /^ {4}\.\. +\d+ lines are left out here, and not in the file$/m);
  assert.ok(historyOf(failed).split("\n").length > 128);
  assert.ok(failed.message.split("\n").length < 80);
});

test("the call that raised ends the printed history", async () => {
  class ReceivesOnce extends Counter {
    received = [];

    receive(message) {
      if (this.received.includes(message)) throw new TypeError("again");
      this.received.push(message);
      super.receive(message);
    }
  }
  class ThrowsTwoLines extends Counter {
    read() {
      if (this.number === 2) throw new RangeError("one\ntwo");
      return this.number;
    }
  }
  const before = "[abc] inc  ok 1  '.' increments";
  const delivery = "[abc] got 0  got 0  '.' receives message 1, label 0 .*";
  const again = ["'.' receives message 1 again", "'.': receive\\(message 1\\) again threw TypeError: again"];
  for (const [Replica, options, rows] of [
    [Stuttering, {}, [before, "'.': increment\\(\\) threw RangeError: three"]],
    [ReceivesOnce, { duplicates: true }, [delivery, ...again]],
    // The first line of an outcome is shown.
    [ThrowsTwoLines, {}, [before, "'.': read\\(\\) threw RangeError: one"]],
  ]) {
    const failed = await failureOf(Replica, "counter", options);
    const repeated = await replay(Replica, failed.steps).catch((error) => error);
    for (const message of [failed.message.split("\n\nthe same as a test:")[0], repeated.message]) {
      const lines = message.split("\n").slice(-rows.length);
      lines.forEach((line, at) => assert.match(line, new RegExp(`^    +${rows[at]}$`)));
    }
    // The history is one that the program reads, so the call has no line in it.
    assert.equal(checkText(findForManyRuns(), historyOf(failed)).status, 0);
    assert.equal(JSON.parse(readFileSync(failed.steps, "utf8")).operation, failed.operation);
  }
});

test("the regression test fails alone and passes once the class is right", async (t) => {
  const planted = (bug, kind) => ({ Replica: OBSERVABLE[bug][kind], kind, module: "./planted.js", bug });
  const cases = [
    { Replica: Unrepaired, kind: "register", right: "Register" },
    { Replica: Stuttering, kind: "counter", right: "Counter" },
    { Replica: Asynchronous, kind: "register", right: "Register" },
    { ...planted("a removal takes what it has not seen", "lwwset"), right: "LwwSet" },
    { ...planted("children stand in rising order", "rga"), right: "Rga" },
  ];
  for (const { Replica, kind, right, bug } of cases) {
    await t.test(Replica.name, async () => {
      const source = sourceOf(await knownFailure(Replica, kind));
      assert.ok(source.split("\n").length <= 30);
      assert.ok(source.includes(`\n// ${Replica.name}: import it from its module\n`));
      assert.doesNotMatch(source, /import \{ replay \}/);
      const imports = bug === undefined
        ? `import { ${Replica.name} } from ${urlOf("./replayed.js")};`
        : `import { OBSERVABLE } from ${urlOf("./planted.js")};\nconst ${Replica.name} = OBSERVABLE["${bug}"].${kind};`;
      const ran = await runSource(source, imports);
      assert.deepEqual([ran.status, /^# fail 1$/m.test(ran.stdout)], [1, true], ran.stdout);
      const repaired = `import { ${right} as ${Replica.name} } from ${urlOf("./replicas.js")};`;
      assert.equal((await runSource(source, repaired)).status, 0);
    });
  }
});

test("the regression test has the faults of the network", async (t) => {
  for (const [bug, text] of [
    ["counts_duplicates", ".receive(m1)"],
    ["keeps_one_message", ".receive(m2)"],
    ["undoes_newer_entries", "structuredClone("],
    ["overflows_at_seven_bits", "for (let times = 0; "],
  ]) {
    await t.test(bug, async () => {
      const { Replica, kind, options } = PLANTED[bug];
      const source = sourceOf(await knownFailure(Replica, kind, options));
      assert.ok(source.includes(text), source);
      assert.ok(source.split("\n").length <= 30);
      const imports = `import { PLANTED } from ${urlOf("./network_replicas.js")};\n` +
        `const ${Replica.name} = PLANTED.${bug}.Replica;`;
      const ran = await runSource(source, imports);
      assert.match(ran.stdout, /^# fail 1$/m);
      assert.match(ran.stdout, /Expected values to be strictly equal/);
    });
  }
});

test("a regression test without an assertion replays the stored run", async () => {
  const { Replica, kind } = PLANTED.forgets_its_clock;
  const failed = await knownFailure(Replica, kind);
  const source = sourceOf(failed);
  assert.ok(source.includes(`await replay(ForgetsItsClock, "${failed.steps}");`), source);
  const from = `from ${urlOf("./network_replicas.js")};`;
  const ran = await runSource(source, `import { ForgetsItsClock } ${from}`);
  assert.match(ran.stdout, /^# fail 1$/m);
  const right = `import { RIGHT } ${from}\nconst ForgetsItsClock = RIGHT["register with restarts"].Replica;`;
  assert.equal((await runSource(source, right)).status, 0);
});

test("an error in receive names the call that returned the message", async () => {
  class ReturnsNothing extends Counter {
    increment() {
      super.increment();
    }
  }
  class ReceivesNothing extends Counter {
    receive() {
      throw new TypeError("no messages");
    }
  }
  class CountsOnce extends Counter {
    received = false;

    receive(message) {
      if (this.received) throw new TypeError("again");
      this.received = true;
      super.receive(message);
    }
  }
  const nothing = ", and is undefined: an update returns the message that the other replicas receive";
  for (const [Replica, options, received, line] of [
    [ReturnsNothing, {}, /^'.': receive\(message 1\) threw TypeError/, `'.': increment\\(\\)${nothing}`],
    [ReceivesNothing, {}, /^'.': receive\(message 1\) threw TypeError/, "'.': (in|de)crement\\(\\)"],
    [CountsOnce, { duplicates: true }, /^'.': receive\(message \d\)( again)? threw/, "'.': (in|de)crement\\(\\)"],
  ]) {
    const failed = await failureOf(Replica, "counter", options);
    assert.match(failed.operation, received);
    const [, second] = failed.message.split("\n");
    assert.match(second, new RegExp(`^message \\d was returned by ${line}$`));
    const again = await replay(Replica, failed.steps).catch((fault) => fault);
    assert.equal(again.message.split("\n")[1], second);
  }
  // An error in another call names no message.
  assert.doesNotMatch((await failureOf(Stuttering, "counter")).message, /was returned by/);
});

test("a result that cannot be reported is a failure", async () => {
  for (const [result, shown, type] of [[NaN, "NaN", "number"], [2.5, "2\\.5", "number"], [null, "null", "null"]]) {
    // Its read returns this result for 2.
    class Returning extends Counter {
      read() {
        return this.number === 2 ? result : this.number;
      }
    }
    const failed = await failureOf(Returning, "counter");
    const expected = "expected a whole number from -2147483648 to 2147483647";
    assert.match(failed.operation, new RegExp(`^'[abc]': read\\(\\) returned ${shown}: ${expected}$`));
    assert.ok(failed instanceof ReplicaRaised && failed.cause instanceof yehatu.NotRepresentable);
    assert.match(failed.message, /run \d+, seed 2-\d+, shrunk from \d+ steps to 3;/);
    assert.equal(readFileSync(failed.history, "utf8").split(" inc\n").length - 1, 2);
    assert.deepEqual(JSON.parse(readFileSync(failed.steps, "utf8")).cause, ["returned", type]);
    // The test at the end has to fail, which a read alone does not.
    assert.match(sourceOf(failed), /import \{ replay \}/);
    const again = await replay(Returning, failed.steps).catch((fault) => fault);
    assert.ok(again instanceof ReplicaRaised);
    assert.match(again.message, new RegExp(`still fails: '.': read\\(\\) returned ${shown}: expected`));
    assert.equal(await replay(Counter, failed.steps), 3);
  }
});

test("a result of a set that cannot be reported is a failure", async () => {
  class ReadsNothing extends LwwSet {
    read() {
      const elements = super.read();
      return elements.length > 0 ? elements : undefined;
    }
  }
  const failed = await failureOf(ReadsNothing, "lwwset");
  assert.match(failed.operation, /read\(\) returned undefined: expected an array or another iterable of the elements$/);
});

test("a run that does not fail again is flaky", async () => {
  Flaky.left = 1;
  const failed = await checkRandom(Flaky, "counter").catch((error) => error);
  assert.ok(failed instanceof FlakyRun && failed instanceof ReportFailed, failed);
  assert.match(failed.message, /at one time: '.' reads -?\d+: not RA-linearizable/);
  assert.match(failed.message, /at another time: it passed/);
  assert.equal(JSON.parse(readFileSync(failed.steps, "utf8")).version, 1);
});

test("a failed run is run twice more before it is shrunk", async () => {
  let made = 0;
  class FailsTwice extends Counter {
    constructor(name) {
      super();
      made += name === "a" ? 1 : 0;
    }

    read() {
      // The first replica is made to look for its methods.
      return made === 2 || made === 3 ? 1000 : this.number;
    }
  }
  await assert.rejects(checkRandom(FailsTwice, "counter", { seeds: [0] }), FlakyRun);
  assert.equal(made, 4);
  Flaky.left = Infinity;
  await assert.rejects(checkRandom(Flaky, "counter"), NotLinearizable);
});

test("a run that fails in another way is flaky", async () => {
  let reads = 0;
  class Changing extends Counter {
    read() {
      reads += 1;
      if (reads > 1) throw new RangeError(String(reads));
      return 1000;
    }
  }
  const isExpected = (error) =>
    error instanceof FlakyRun && /at one time: .*at another time: .* threw RangeError/s.test(error.message);
  await assert.rejects(checkRandom(Changing, "counter"), isExpected);
});
