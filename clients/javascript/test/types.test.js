// The types of the package, and of a use of it.
import assert from "node:assert/strict";
import { spawnSync } from "node:child_process";
import { mkdirSync, mkdtempSync, rmSync, symlinkSync, writeFileSync, readFileSync } from "node:fs";
import { tmpdir } from "node:os";
import { join } from "node:path";
import { test } from "node:test";
import { fileURLToPath } from "node:url";

const CLIENT = fileURLToPath(new URL("..", import.meta.url));
const COMPILER = spawnSync("tsc", ["--version"], { encoding: "utf8" });
const needsCompiler = { skip: COMPILER.status !== 0 && "not installed: apt-get install node-typescript" };
const OPTIONS = "--strict --target es2022 --module nodenext --lib es2022,dom --noUncheckedIndexedAccess".split(" ");

/** Compiles this TypeScript in a folder in which the package is installed, and runs `act` with the result. */
function compile(source, act) {
  const folder = mkdtempSync(join(tmpdir(), "yehatu_"));
  try {
    mkdirSync(join(folder, "node_modules"));
    symlinkSync(CLIENT, join(folder, "node_modules", "yehatu"));
    writeFileSync(join(folder, "package.json"), '{ "type": "module" }');
    writeFileSync(join(folder, "use.ts"), source);
    const ran = spawnSync("tsc", [...OPTIONS, "use.ts"], { cwd: folder, encoding: "utf8" });
    return act(ran, join(folder, "use.js"));
  } finally {
    rmSync(folder, { recursive: true });
  }
}

test("the package and a use of it have strict types", needsCompiler, () => {
  compile(readFileSync(join(CLIENT, "test", "typed_use.ts"), "utf8"), (compiled, path) => {
    assert.deepEqual([compiled.stdout, compiled.status], ["", 0]);
    const ran = spawnSync(process.execPath, [path], { encoding: "utf8" });
    assert.deepEqual([ran.stderr, ran.stdout], ["", "2 0 3 false ok 0\n"]);
  });
});

test("a wrong use is rejected", needsCompiler, () => {
  const source = `import { Recorder, checkRandom } from "yehatu";
    const checked: string = await checkRandom(3, "counter");
    await new Recorder("bag", ["a"]).increment("a", { amount: 3 });`;
  compile(source, ({ stdout, status }) => {
    assert.notEqual(status, 0);
    assert.match(stdout, /No overload matches this call|is not assignable to parameter of type 'MakeReplica'/);
    assert.match(stdout, /Type 'Runs' is not assignable to type 'string'/);
    assert.match(stdout, /'"bag"' is not assignable to parameter of type 'Kind'/);
    assert.match(stdout, /'amount' does not exist in type/);
  });
});
