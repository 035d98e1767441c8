// The command `watch`, as a process: its status, its end, its page, and what a terminal gets.
import assert from "node:assert/strict";
import { chmodSync, mkdtempSync, readFileSync, readdirSync, rmSync, writeFileSync, appendFileSync } from "node:fs";
import { tmpdir } from "node:os";
import { join } from "node:path";
import { after, test } from "node:test";
import { setTimeout as sleep } from "node:timers/promises";
import { RandomNumbers } from "../src/random_numbers.js";
import { Counts, Unanswered } from "../src/watch_counts.js";
import { CLIENT, Watched, screen, stripColours } from "./watched.js";

const COUNTER = "RAH 1 counter\nreplicas a b\n";
// A program that explains in known words, with a control character, and that checks as another one does.
const EXPLAINS = `\
#!/bin/sh
if [ "$1 $2" = "explain --html" ]; then echo "<!doctype html>"; exec cat; fi
if [ "$1" = explain ]; then printf 'expected        a label \\033[31m\\n'; exit 2; fi
exec "PROGRAM" "$@"
`;
const NO_EXPLANATION = '#!/bin/sh\n[ "$1" = check ] || exit 7\nexec "PROGRAM" "$@"\n';
// A status line: its verdict, its number of reports, and what follows them.
const STATUS = /^(yes|no .*) after \d+ s: reports ([\d,]+) \([\d,]+\/s\), (.*)$/;

const folders = [];
const runs = [];
after(async () => {
  for (const it of runs) await it.stop();
  for (const it of folders) rmSync(it, { recursive: true });
});

/** Makes a temporary folder, where runs keep what they keep. */
function newFolder() {
  folders.push(mkdtempSync(join(tmpdir(), "yehatu_watch_")));
  return folders.at(-1);
}

/** Starts a run in a folder. */
function watched(words = [], { folder = newFolder(), ...changes } = {}) {
  runs.push(new Watched(words, { cwd: folder, TMPDIR: folder, ...changes }));
  return runs.at(-1);
}

/** Returns the path of a program with this text, in which PROGRAM is the one that the tests use. */
function program(folder, text) {
  const path = join(folder, "program");
  writeFileSync(path, text.replace("PROGRAM", process.env.RA_MONITOR || join(CLIENT, "..", "..", "ra_monitor")));
  chmodSync(path, 0o755);
  return path;
}

/** Returns the histories that were kept in a folder. */
const kept = (folder) => readdirSync(folder).filter((it) => /^yehatu_.*\.rah$/.test(it)).map((it) => join(folder, it));

/** Returns the status lines: of each the verdict, the number of reports, and what follows them. */
const statuses = (run) => run.lines().map((it) => STATUS.exec(it)).filter(Boolean).map((it) => it.slice(1));

/** Waits for the end of a run. Returns its status and its standard output. */
const ended = async (run) => [await run.wait(), run.stdout];

test("a pass has its counts and the end line", async () => {
  const folder = newFolder();
  const run = watched([], { folder });
  run.write(`${COUNTER}a inc\nb got 0\nb read 1\nverdict\na dec\n`);
  run.close();
  assert.deepEqual(await ended(run), [0, "end yes 3\n"]);
  assert.deepEqual(statuses(run), [["yes", "5", "labels 3, refused 0, lag b 1, a 0"]]);
  assert.deepEqual([kept(folder), run.lines().slice(1)], [[], ["--page FILE writes a page about such a run"]]);
});

test("replies are those of the check", async () => {
  const run = watched(["--replies"]);
  run.write(`${COUNTER}a inc\nb got 0\nb got 0\n`);
  await run.waitFor("stdout", "refused already-seen\n");
  run.write("b read 1");
  run.write("\n");
  run.close();
  assert.deepEqual(await ended(run), [3, "ok 0\ngot 0\nrefused already-seen\nok 1\nend yes 2\n"]);
});

test("a violation is shown at once", async () => {
  const run = watched(["--every", "3600"]);
  run.write(`${COUNTER}a inc\nb read 1\n`);
  await run.waitFor("stderr", "\n");
  assert.deepEqual(run.lines(), [
    "line 4, b read 1: no 1 query: its result does not follow from the updates that it sees",
  ]);
  run.write("a inc\na inc\n");
  run.close();
  assert.deepEqual(await ended(run), [1, "end no 1 query\n"]);
  assert.deepEqual(statuses(run), [["no 1 query at line 4", "4", "those after line 4 not judged"]]);
});

test("stop ends at the first violation", async () => {
  const folder = newFolder();
  const run = watched(["--stop", "--page", "page.html"], { folder, RA_MONITOR: program(folder, EXPLAINS) });
  run.write(`${COUNTER}a inc\nb read 1\na inc\na inc\n`);
  assert.deepEqual(await ended(run), [1, "end no 1 query\n"]);
  const page = readFileSync(join(folder, "page.html"), "latin1");
  assert.equal(page, `<!doctype html>\n${COUNTER}a inc\nb read 1\n`);
});

test("the first refusal of each cause is shown", async () => {
  const run = watched(["--every", "3600"]);
  run.write(`${COUNTER}a got 0\nc inc\nb got 7\nb got 8\nd inc\n`);
  run.close();
  assert.deepEqual(await ended(run), [3, "end yes 0\n"]);
  assert.deepEqual(run.lines().filter((it) => it.startsWith("line ")), [
    "line 3, a got 0: refused unknown-label (the first with this cause)",
    "line 4, c inc: refused unknown-replica (the first with this cause)",
  ]);
  assert.deepEqual(statuses(run), [["yes", "5", "labels 0, refused 5, lag a 0, b 0"]]);
});

test("an interrupt ends with the verdict", async () => {
  const run = watched(["--replies"]);
  run.write(`${COUNTER}a inc\na re`);
  await run.waitFor("stdout", "ok 0\n");
  run.interrupt();
  assert.deepEqual(await ended(run), [0, "ok 0\nend yes 1\n"]);
});

test("a second interrupt ends the run at once", async () => {
  const folder = newFolder();
  const path = program(folder, "#!/bin/sh\ncat > /dev/null\nsleep 10\n");
  const run = watched(["--every", "0.1"], { folder, RA_MONITOR: path });
  await run.waitFor("stderr", "reports 0");
  for (let number = 0; number < 40 && !run.hasEnded(); number += 1) {
    run.interrupt();
    await sleep(200);
  }
  assert.equal(await run.wait(), "SIGINT");
});

test("a syntax fault is shown with what is expected", async () => {
  const folder = newFolder();
  const run = watched(["--replies"], { folder, RA_MONITOR: program(folder, EXPLAINS) });
  run.write(`${COUNTER}a inc\nb got\x1b[2J 00\n`);
  assert.deepEqual(await ended(run), [2, "ok 0\n"]);
  assert.deepEqual(statuses(run), [["no verdict", "1", "labels 1, refused 0, lag b 1, a 0"]]);
  assert.deepEqual(run.lines().slice(1, 3), ["line 4: syntax", "expected        a label \\x1b[31m"]);
  assert.equal(readFileSync(kept(folder)[0], "latin1"), `${COUNTER}a inc\nb got\x1b[2J 00\n`);
});

test("a fault without an explanation shows the line", async () => {
  const folder = newFolder();
  const run = watched([], { folder, RA_MONITOR: program(folder, NO_EXPLANATION) });
  run.write(`${COUNTER}a inc\nb got\x1b[2J\x9b ${"0".repeat(100)}\n`);
  assert.equal(await run.wait(), 2);
  assert.deepEqual(run.lines().slice(1, 3), [
    "line 4: syntax",
    `b got\\x1b[2J\\x9b ${"0".repeat(49)} ..: \`ra_monitor help format\` says what is expected`,
  ]);
});

test("an unfinished last line is a fault", async () => {
  const run = watched();
  run.write(`${COUNTER}a inc\na inc`);
  run.close();
  assert.deepEqual(await ended(run), [2, ""]);
  assert.ok(run.lines().includes("line 4: truncated"), run.stderr);
});

test("a program that is no monitor is reported", async () => {
  for (const [text, message] of [
    ["exec cat", "the program is not a monitor: it replied 'RAH 1 counter'"],
    ["cat > /dev/null; echo tired >&2; exit 1", 'exited with status 1; its standard error is "tired"'],
  ]) {
    const folder = newFolder();
    const run = watched([], { folder, RA_MONITOR: program(folder, `#!/bin/sh\n${text}\n`) });
    run.write(`${COUNTER}a inc\n`);
    run.close();
    assert.deepEqual(await ended(run), [2, ""]);
    assert.ok(run.stderr.includes(message), run.stderr);
  }
});

test("wrong arguments are rejected", async () => {
  for (const [words, message] of [
    [["--every", "0"], "expected a number of seconds from 0.1 to 86400"],
    [["--every", "soon"], "soon"],
    [["--follow"], "--follow needs a FILE"],
    [["--page", "nowhere/page.html"], "nowhere/page.html"],
    [["nowhere.rah"], "nowhere.rah"],
  ]) {
    const run = watched(words);
    assert.deepEqual(await ended(run), [2, ""]);
    assert.ok(run.stderr.includes(message), run.stderr);
  }
});

test("the page is about the whole text", async () => {
  const folder = newFolder();
  const run = watched(["--page", "page.html"], { folder, RA_MONITOR: program(folder, EXPLAINS) });
  run.write(`${COUNTER}a inc\na read 1\n`);
  run.close();
  assert.equal(await run.wait(), 0);
  assert.equal(readFileSync(join(folder, "page.html"), "latin1"), `<!doctype html>\n${COUNTER}a inc\na read 1\n`);
  assert.deepEqual([run.lines().slice(1), kept(folder)], [["the page about it: page.html"], []]);
});

test("the history of a violation is kept", async () => {
  const folder = newFolder();
  const path = program(folder, EXPLAINS);
  const run = watched([], { folder, RA_MONITOR: path });
  run.write(`${COUNTER}a read 1\n`);
  run.close();
  assert.equal(await run.wait(), 1);
  const [history] = kept(folder);
  assert.equal(readFileSync(history, "latin1"), `${COUNTER}a read 1\n`);
  const command = `a page about it: ${path} explain --html ${history} > page.html`;
  assert.deepEqual(run.lines().slice(2), [`the history: ${history}`, command]);
});

test("a file is named and not kept again", async () => {
  const folder = newFolder();
  writeFileSync(join(folder, "a history.rah"), `${COUNTER}a read 1\n`);
  const run = watched(["a history.rah"], { folder, RA_MONITOR: program(folder, EXPLAINS) });
  assert.deepEqual([await run.wait(), kept(folder)], [1, []]);
  assert.ok(run.lines()[2].endsWith("explain --html 'a history.rah' > page.html"), run.stderr);
});

test("a program that cannot explain makes no page", async () => {
  const folder = newFolder();
  const run = watched(["--page", "page.html"], { folder, RA_MONITOR: program(folder, NO_EXPLANATION) });
  run.write(COUNTER);
  run.close();
  assert.deepEqual(await ended(run), [0, "end yes 0\n"]);
  assert.ok(run.stderr.includes("there is no page: the program has no `explain`"), run.stderr);
  assert.deepEqual(kept(folder).map((it) => readFileSync(it, "latin1")), [COUNTER]);
});

test("a growing file is followed", async () => {
  const path = join(newFolder(), "growing.rah");
  writeFileSync(path, `${COUNTER}a inc\n`);
  const run = watched([path, "--follow", "--replies"]);
  await run.waitFor("stdout", "ok 0\n");
  for (const number of [1, 2, 3]) {
    appendFileSync(path, "a i");
    await sleep(100);
    appendFileSync(path, "nc\n");
    await run.waitFor("stdout", `ok ${number}\n`);
  }
  run.interrupt();
  assert.deepEqual(await ended(run), [0, "ok 0\nok 1\nok 2\nok 3\nend yes 4\n"]);
});

test("a file ends without follow", async () => {
  const folder = newFolder();
  writeFileSync(join(folder, "whole.rah"), COUNTER + "a inc\n".repeat(30_000));
  const run = watched(["whole.rah"], { folder });
  assert.deepEqual(await ended(run), [0, "end yes 30000\n"]);
  assert.deepEqual(statuses(run).at(-1), ["yes", "30,000", "labels 30,000, refused 0, lag b 30,000, a 0"]);
});

test("memory does not grow with the text", async () => {
  const elements = Array.from({ length: 1000 }, (_, index) => 1000 + index);
  const reads = `a read ${elements.join(",")}\n`.repeat(200);
  const peaks = [];
  for (const rounds of [4, 40]) {
    const run = watched(["--every", "3600"]);
    run.write("RAH 1 lwwset\nreplicas a b\n");
    run.write(elements.map((it) => `a add ${it} @${it}\n`).join(""));
    for (let round = 0; round < rounds; round += 1) run.write(reads);
    run.write("a got 0\n");
    await run.waitFor("stderr", "refused");
    peaks.push(Number(/VmHWM:\s+(\d+) kB/.exec(readFileSync(`/proc/${run.pid}/status`, "latin1"))[1]));
    run.close();
    await run.wait();
  }
  // The texts have 4 and 40 million bytes.
  assert.ok(peaks[1] - peaks[0] < 20_000, `${peaks}`);
});

test("without a terminal the status is plain lines", async () => {
  const run = watched(["--every", "0.1"]);
  run.write(`${COUNTER}a inc\n`);
  await run.waitFor("stderr", "reports 1 ", 2);
  run.close();
  await run.wait();
  assert.ok(!/[\r\x1b]/.test(run.stderr), run.stderr);
  const status = ["yes", "1", "labels 1, refused 0, lag b 1, a 0"];
  assert.deepEqual(statuses(run).slice(-2), [status, status]);
});

test("a terminal has one line that is rewritten", async () => {
  const run = watched(["--every", "0.1"], { columns: 200 });
  run.write(COUNTER + "a inc\n".repeat(1000));
  await run.waitFor("stderr", "reports 1,000", 3);
  // Each is written behind a carriage return, and covers the longer one before.
  assert.ok(screen(run.stderr)[0].endsWith("lag b 1,000, a 0"), screen(run.stderr)[0]);
  run.write("b read 1\n");
  await run.waitFor("stderr", "not judged", 3);
  assert.ok(!run.stderr.split("line 1003")[0].includes("\n"));
  const lines = screen(run.stderr);
  assert.equal(lines[0],
    "line 1003, b read 1: no 1000 query: its result does not follow from the updates that it sees");
  const status =
    /^no 1000 query at line 1003 after \d+ s: reports 1,001 \([\d,]+\/s\), those after line 1003 not judged$/;
  assert.match(lines[1], status);
  assert.equal(lines.length, 2);
  run.close();
  assert.equal(await run.wait(), 1);
});

test("the status is cut at the width", async () => {
  const run = watched(["--every", "0.1"], { columns: 30 });
  run.write(`${COUNTER}a inc\n`);
  await run.waitFor("stderr", "reports 1", 2);
  const shown = run.stderr.split("\r").filter((it) => it.includes("reports 1")).map((it) => stripColours(it).trimEnd());
  assert.ok(shown.every((it) => it.length <= 29 && it.startsWith("yes after ")), `${shown}`);
  assert.ok(shown.some((it) => it.length >= 28), `${shown}`);
});

test("colours are for terminals that want them", async () => {
  for (const [changes, hasColours] of [[{}, true], [{ NO_COLOR: "1" }, false], [{ TERM: "dumb" }, false]]) {
    const run = watched(["--every", "0.1"], { columns: 120, ...changes });
    run.write(`${COUNTER}a read 1\n`);
    await run.waitFor("stderr", "not judged");
    assert.equal(run.stderr.includes("\x1b[1;31mno 0 query at line 3\x1b[0m after"), hasColours);
    assert.equal(run.stderr.includes("\x1b"), hasColours);
  }
});

test("control characters do not reach the terminal", async () => {
  const folder = newFolder();
  const path = program(folder,
    '#!/bin/sh\n[ "$1" = check ] || exit 7\nread a; read b; read c\necho "no 0 query"\nread d; exit 2\n');
  const run = watched(["--every", "0.1"], { folder, columns: 200, NO_COLOR: "1", RA_MONITOR: path });
  run.write("RAH 1 counter\nreplicas \x1b]0;a\x07 b\x9b\n");
  await run.waitFor("stderr", "lag \\x1b]0;a\\x07 0, b\\x9b 0");
  run.write("a \x1b[2J\x07 1\n");
  await run.waitFor("stderr", "not judged");
  run.close();
  assert.equal(await run.wait(), 2);
  assert.ok(/^[\r\n -~]*$/.test(run.stderr.replace("^C", "")), JSON.stringify(run.stderr));
  assert.ok(run.stderr.includes("line 3, a \\x1b[2J\\x07 1: no 0 query"), run.stderr);
});

test("the lags are those of the replies", () => {
  for (let seed = 0; seed < 30; seed += 1) {
    const { commands, replies, expected } = history(new RandomNumbers(`${seed}`));
    for (const size of [1, 7, commands.length]) {
      const counts = new Counts();
      counts.begin("replicas a b c");
      for (let first = 0; first < commands.length; first += size) {
        counts.add(commands.slice(first, first + size), replies.slice(first, first + size));
      }
      assert.deepEqual(Object.fromEntries(counts.lags()), expected, `seed ${seed}, size ${size}`);
      const sorted = Object.values(expected).sort((one, other) => other - one);
      assert.deepEqual(counts.lags().map(([, lag]) => lag), sorted);
    }
  }
});

test("commands are taken in their order", () => {
  const unanswered = new Unanswered();
  const lines = Array.from({ length: 100 }, (_, number) => `${number} inc`);
  for (let first = 0; first < 100; first += 9) unanswered.append(lines.slice(first, first + 9));
  const taken = [1, 0, 8, 20, 3, 60, 20].map((it) => unanswered.take(it));
  const ranges = [[0, 1], [1, 1], [1, 9], [9, 29], [29, 32], [32, 92], [92, 100]];
  assert.deepEqual(taken, ranges.map(([first, end]) => lines.slice(first, end)));
});

/** Returns the commands of a history with joins, their replies, and the number of updates that each replica lacks. */
function history(chance) {
  const seen = new Map(["a", "b", "c"].map((it) => [it, new Set()]));
  const [updates, commands, replies] = [[], [], []];
  let labels = 0;
  const add = (command, reply) => {
    commands.push(command);
    replies.push(reply);
  };
  const actions = {
    verdict: () => add("verdict", `yes ${labels}`),
    join: (name, number) => {
      // Some names are in use.
      const other = chance.choice([`r${number}`, name]);
      add(`join ${other} ${name}`, other === name ? "refused replica-there" : `joined ${seen.size}`);
      if (other !== name) seen.set(other, new Set(seen.get(name)));
    },
    got: (name) => {
      const label = chance.choice([...updates, 1000]);
      const isNew = updates.includes(label) && !seen.get(name).has(label);
      add(`${name} got ${label}`, isNew ? `got ${label}` : "refused already-seen");
      if (isNew) seen.get(name).add(label);
    },
    read: (name) => {
      add(`${name} read 0`, `ok ${labels}`);
      labels += 1;
    },
    inc: (name) => {
      add(`${name} inc`, `ok ${labels}`);
      updates.push(labels);
      seen.get(name).add(labels);
      labels += 1;
    },
  };
  const words = ["inc", "inc", "got", "got", "got", "read", "verdict", "join"];
  const length = chance.number(1, 80);
  for (let number = 0; number < length; number += 1) {
    actions[chance.choice(words)](chance.choice([...seen.keys()]), number);
  }
  const expected = Object.fromEntries([...seen].map(([name, those]) => [name, updates.length - those.size]));
  return { commands, replies, expected };
}
