// Recorders that are not closed: the process warns and does not end with success.
import assert from "node:assert/strict";
import { spawnSync } from "node:child_process";
import { test } from "node:test";

const INDEX = JSON.stringify(new URL("../index.js", import.meta.url).href);
const IMPORT = `import { NotLinearizable, NotRepresentable, Recorder } from ${INDEX};\n`;
const BEGIN =
  `${IMPORT}let recorder = new Recorder("counter", ["a"]);\nawait recorder.increment("a");\nconsole.log("done");\n`;

/** Runs JavaScript code in a process of its own. */
function run(code, ...options) {
  const words = [...options, "--input-type=module", "--eval", code];
  return spawnSync(process.execPath, words, { encoding: "utf8", timeout: 60_000 });
}

test("an unclosed recorder ends the process with status three", () => {
  for (const end of ["", "recorder = undefined;\n"]) {
    const { stdout, stderr, status } = run(BEGIN + end);
    assert.deepEqual([stdout, status], ["done\n", 3]);
    assert.match(stderr, /the Recorder\('counter', \.\.\) that was created at .*\[eval1\]:2:16: not closed, so/);
    assert.ok(stderr.includes("await close(), or pass mustClose: false"));
  }
});

test("a closed recorder ends the process with status zero", () => {
  for (const end of ["await recorder.close();\n", "await recorder.stop();\n"]) {
    const { stdout, stderr, status } = run(BEGIN + end);
    assert.deepEqual([stdout, stderr, status], ["done\n", "", 0]);
  }
  const { stderr, status } = run(BEGIN.replace('["a"]', '["a"], { mustClose: false }'));
  assert.deepEqual([stderr, status], ["", 0]);
});

test("a process that failed keeps its status", () => {
  const { stderr, status } = run(`${BEGIN}throw new RangeError("own");\n`);
  assert.equal(status, 1);
  assert.match(stderr, /RangeError: own/);
  assert.match(stderr, /not closed/);
  assert.equal(run(`${BEGIN}process.exit(7);\n`).status, 7);
});

test("a recorder that is collected unclosed warns", () => {
  const collect = `
    recorder = undefined;
    for (let turns = 0; turns < 20; turns += 1) {
      await new Promise((resolve) => setTimeout(resolve, 10));
      globalThis.gc();
    }`;
  const { stderr, status } = run(BEGIN + collect, "--expose-gc");
  const warning = /ResourceWarning: the Recorder\('counter', \.\.\) that was created at .*\[eval1\]:2:16 was not/;
  assert.match(stderr, warning);
  assert.equal(status, 3);
  for (const end of ["close", "stop"]) {
    const ran = run(`${BEGIN}await recorder.${end}();\n${collect}`, "--expose-gc");
    assert.deepEqual([ran.stderr, ran.status], ["", 0]);
  }
});

test("a recorder whose failure was raised counts as closed", () => {
  for (const [call, error] of [["read('a', 5)", "NotLinearizable"], ["read('a', null)", "NotRepresentable"]]) {
    const code = `${IMPORT}
      const recorder = new Recorder("counter", ["a"], { window: 1, history: "/dev/null" });
      await recorder.${call}.catch((error) => console.log(error instanceof ${error} ? "raised" : error));`;
    const { stdout, stderr, status } = run(code);
    assert.deepEqual([stdout, stderr, status], ["raised\n", "", 0]);
  }
});
