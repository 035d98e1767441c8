// The source of a regression test for a small run.
import { inspect } from "node:util";
import { DeliveryState } from "./delivery_state.js";
import { initialReplicas } from "./driver.js";
import { LISTS } from "./operations.js";
import { isClass } from "./profile.js";
import { Unusable } from "./returned.js";
import { RECEIVING, callArguments } from "./steps.js";

const MAX_LINES = 30;
const INDENT = "  ";
const IDENTIFIER = /^[A-Za-z_$][\w$]*$/;
// Names that a replica's variable cannot have: reserved words, and what the test uses.
const TAKEN = new Set((
  "arguments assert async await break case catch class const continue debugger default delete do else enum eval " +
  "export extends false finally for function if implements import in instanceof interface let new null package " +
  "private protected public replay return static structuredClone super switch test this throw true try typeof " +
  "undefined var void while with yield"
).split(" "));
const OWN_VARIABLE = /^(m|read|saved|state)\d/;
const shown = (value) => inspect(value, { breakLength: Infinity, depth: null });

/** The statements of the test, one step after another. */
class Source {
  lines = [];
  #make;
  #kind;
  #names;
  #wait;
  #used;
  #restarts;
  #loadsStatically;
  #indexes;
  #received = new Map();

  constructor(setting, { steps, isAsynchronous, indexes }, { name, make }) {
    this.#make = make;
    this.#kind = setting.kind;
    this.#names = setting.replicas;
    this.#indexes = indexes;
    this.#wait = isAsynchronous ? "await " : "";
    this.taken = new Set([...TAKEN, name]);
    this.#used = new Set(steps.filter((it) => RECEIVING.includes(it.action)).map((it) => it.number));
    this.#restarts = new Set(steps.filter((it) => it.action === "restart").map((it) => it.replica));
    this.#loadsStatically =
      this.#restarts.size > 0 && typeof setting.make(setting.replicas[0]).load !== "function";
    const initial = initialReplicas(steps);
    for (const it of initial) this.#declare(it, make(shown(this.#names[it])));
    for (const it of initial) this.#save(it);
  }

  /** Returns the variable of a replica: its name, if it can be one. */
  variable(replica) {
    const name = this.#names[replica];
    const isFree = typeof name === "string" && IDENTIFIER.test(name) && !this.taken.has(name);
    return isFree && !OWN_VARIABLE.test(name) ? name : `replica${replica}`;
  }

  #declare(replica, value) {
    this.lines.push(`${this.#restarts.has(replica) ? "let" : "const"} ${this.variable(replica)} = ${value};`);
  }

  /** Adds the statements of a step. */
  add(step) {
    const { action, replica, number, method } = step;
    const name = this.variable(replica);
    const statements = {
      update: () => {
        const target = this.#used.has(number) ? `const m${number} = ` : "";
        const parameters = callArguments(step, this.#indexes).map(shown).join(", ");
        this.lines.push(`${target}${this.#wait}${name}.${method}(${parameters});`);
        this.#save(replica);
      },
      deliver: () => this.#receive(replica, `receive(m${number})`),
      duplicate: () => this.lines.push(`${this.#wait}${name}.receive(m${number});`),
      merge: () => this.#merge(replica, `${this.#wait}${this.variable(number)}.state()`),
      snapshot: () => this.lines.push(`const state${number} = structuredClone(${this.#wait}${name}.state());`),
      merge_snapshot: () => this.#receive(replica, `merge(structuredClone(state${number}))`),
      save: () => this.#save(replica),
      restart: () => this.#restart(replica),
      join: () => {
        this.#declare(replica, `${this.#wait}${this.variable(number)}.fork(${shown(this.#names[replica])})`);
        this.#save(replica);
      },
      read: () => this.lines.push(`${this.#wait}${name}.read();`),
    };
    statements[action]();
  }

  #save(replica) {
    if (!this.#restarts.has(replica)) return;
    const first = this.#received.has(replica) ? "" : "let ";
    this.#received.set(replica, []);
    this.lines.push(`${first}saved${replica} = structuredClone(${this.#wait}${this.variable(replica)}.save());`);
  }

  #merge(replica, state) {
    if (!this.#restarts.has(replica)) return this.#receive(replica, `merge(${state})`);
    // The same state is merged again after a restart.
    const name = `state${replica}at${this.lines.length}`;
    this.lines.push(`const ${name} = structuredClone(${state});`);
    return this.#receive(replica, `merge(structuredClone(${name}))`);
  }

  #receive(replica, call) {
    const line = `${this.#wait}${this.variable(replica)}.${call};`;
    this.#received.get(replica)?.push(line);
    this.lines.push(line);
  }

  #restart(replica) {
    const name = this.variable(replica);
    const owner = this.#loadsStatically ? `${name}.constructor` : name;
    this.lines.push(`${name} = ${this.#make(shown(this.#names[replica]))};`);
    this.lines.push(`${name} = (${this.#wait}${owner}.load(structuredClone(saved${replica}))) ?? ${name};`);
    this.lines.push(...this.#received.get(replica));
  }

  /** Adds a read whose result the last read has to be equal to. */
  keepRead({ replica }) {
    this.lines.push(`const read1 = structuredClone(${this.#wait}${this.variable(replica)}.read());`);
  }

  /** Adds the last read, which has to be equal to the one that was kept. */
  compareReads({ replica }) {
    this.lines.push(`assert.deepEqual(${this.#wait}${this.variable(replica)}.read(), read1);`);
  }

  /** Adds the last read, with its expected result. */
  addAssertion({ replica }, expected) {
    const read = `${this.#wait}${this.variable(replica)}.read()`;
    if (["lwwset", "orset", "mvregister"].includes(this.#kind)) {
      this.lines.push(`assert.deepEqual(new Set(${read}), new Set(${shown(expected)}));`);
    } else if (LISTS.includes(this.#kind)) {
      this.lines.push(`assert.deepEqual([...${this.#wait ? `(${read})` : read}], ${shown(expected)});`);
    } else if (expected === null) {
      this.lines.push(`assert.equal((${read}) ?? null, null);`);
    } else {
      this.lines.push(`assert.equal(${read}, ${shown(expected)});`);
    }
  }
}

/**
 * Returns the source of a test with the calls of the steps, or, if that is longer than 30 lines, with `replay`.
 * `expected` is the expected result of the last read as `{ value }`, or null.
 */
export function regressionTest(setting, failure, { seed, expected, path }) {
  const maker = makerOf(setting.makeReplica);
  const { steps } = failure;
  const source = new Source(setting, failure, maker);
  const raises = failure.raised && !(failure.raised.error instanceof Unusable);
  const compared = setting.kind === "any" && !failure.raised ? firstEqualRead(steps, setting.replicas.length) : null;
  const asserts = expected !== null || compared !== null;
  for (const [place, it] of (asserts ? steps.slice(0, -1) : steps).entries()) {
    if (place === compared) source.keepRead(it);
    else source.add(it);
  }
  if (compared !== null) source.compareReads(steps.at(-1));
  else if (asserts) source.addAssertion(steps.at(-1), expected.value);
  const body = collapsed(source.lines).map((it) => INDENT + it);
  const imports = ['import assert from "node:assert/strict";', 'import { test } from "node:test";'];
  const begin = (wait) => [maker.comment, "", `test("seed ${seed}", ${wait}() => {`];
  const needed = asserts ? imports : imports.slice(1);
  const lines = [...needed, ...begin(failure.isAsynchronous ? "async " : ""), ...body];
  // A read whose result cannot be reported throws nothing, and neither does a message that changed.
  const says = asserts || raises;
  if (lines.length < MAX_LINES && says && !failure.hasInstances) return `${[...lines, "});"].join("\n")}\n`;
  const replays = [imports[1], 'import { replay } from "yehatu";', ...begin("async ")];
  return `${[...replays, `${INDENT}await replay(${maker.name}, ${JSON.stringify(path)});`, "});"].join("\n")}\n`;
}

/**
 * Returns the place of the first read that sees the same updates as the last step, or null if that is the last one
 * itself, or no read.
 */
function firstEqualRead(steps, replicas) {
  const state = new DeliveryState("", replicas);
  const taken = new Map();
  const first = new Map();
  const handlers = {
    update: (step) => state.update(step),
    deliver: ({ replica, number }) => state.arrive(replica, number),
    merge: ({ replica, number }) => state.merge(replica, state.counts(number)),
    snapshot: ({ replica, number }) => taken.set(number, state.counts(replica)),
    merge_snapshot: ({ replica, number }) => state.merge(replica, taken.get(number)),
    join: ({ replica, number }) => state.join(replica, number),
  };
  const seenBy = ({ replica }) => state.counts(replica).join(" ");
  for (const [place, step] of steps.entries()) {
    handlers[step.action]?.(step);
    if (step.action === "read" && !first.has(seenBy(step))) first.set(seenBy(step), place);
  }
  const last = steps.at(-1);
  const found = first.get(seenBy(last)) ?? steps.length;
  return last.action === "read" && found < steps.length - 1 ? found : null;
}

/** Returns the name of the function or class, what it makes, and a comment that says where it comes from. */
function makerOf(makeReplica) {
  const isNamed = IDENTIFIER.test(makeReplica.name) && !TAKEN.has(makeReplica.name);
  const name = isNamed ? makeReplica.name : "makeReplica";
  const isNew = isClass(makeReplica);
  const comment = isNamed ? `// ${name}: import it from its module` : `// ${name}: what checkRandom was called with`;
  return { name, comment, make: (replica) => `${isNew ? "new " : ""}${name}(${replica})` };
}

/** Returns the lines with a loop in the place of three or more equal calls in a row. */
function collapsed(lines) {
  const result = [];
  for (let start = 0, end = 0; start < lines.length; start = end) {
    while (end < lines.length && lines[end] === lines[start]) end += 1;
    const count = end - start;
    if (count <= 2) result.push(...lines.slice(start, end));
    else result.push(`for (let times = 0; times < ${count}; times += 1) ${lines[start]}`);
  }
  return result;
}
