// One random run of the list of Yjs, as a history of the kind `rga`:
//
//     NODE_PATH=/usr/share/nodejs node examples/libraries/yjs_by_clocks.mjs SEED > run.rah
//     ./ra_monitor explain run.rah
//
// Yjs orders concurrent insertions by client numbers and not by clocks, so most runs are violations by Lamport clocks.
// `explain` says of each whether another order of the updates explains it, and if none does, which lines contradict
// each other, and whether the replicas still agree on one list. Deliveries are causal, and any number may be pending.
import { createRequire } from "node:module";

const Y = createRequire(import.meta.url)("yjs");
const NAMES = ["a", "b", "c"];
const STEPS = 18;

// Random numbers that are the same each time.
let last = Number(process.argv[2] ?? 1);
const chance = () => (last = (last * 48_271) % 2_147_483_647) / 2_147_483_647;
const choice = (list) => list[Math.floor(chance() * list.length)];

const lines = ["RAH 1 rga", `replicas ${NAMES.join(" ")}`];
// What was sent, by label: the update, its clock, and the labels that its sender had.
const sent = new Map();
let labels = 0;
let elements = 0;

class Replica {
  doc = new Y.Doc();
  array = this.doc.getArray("list");
  clock = 0;
  had = new Set();

  constructor(name) {
    this.name = name;
    this.doc.clientID = NAMES.indexOf(name) + 1;
  }

  /** Makes an update of the list, and writes its line. */
  update(words, change) {
    const needs = new Set(this.had);
    this.clock += 1;
    this.doc.once("update", (bytes) => sent.set(labels, { bytes, clock: this.clock, needs }));
    change();
    lines.push(`${this.name} ${words} @${this.clock}`);
    this.had.add(labels);
    labels += 1;
  }

  insert() {
    const shown = this.array.toArray();
    const index = Math.floor(chance() * (shown.length + 1));
    elements += 1;
    this.update(`after ${index === 0 ? 0 : shown[index - 1]} ${elements}`, () => this.array.insert(index, [elements]));
  }

  /** The labels that can be delivered here. */
  pending() {
    return [...sent].filter(([label, it]) => !this.had.has(label) && [...it.needs].every((need) => this.had.has(need)));
  }

  receive([label, { bytes, clock }]) {
    Y.applyUpdate(this.doc, bytes);
    this.clock = Math.max(this.clock, clock);
    this.had.add(label);
    lines.push(`${this.name} got ${label}`);
  }

  read() {
    const shown = this.array.toArray();
    lines.push(`${this.name} read ${shown.length ? shown.join(",") : "-"}`);
    labels += 1;
  }
}

const replicas = NAMES.map((name) => new Replica(name));
for (let step = 0; step < STEPS; step += 1) {
  const replica = choice(replicas);
  const pending = replica.pending();
  if (chance() < 0.4 || pending.length === 0) {
    replica.insert();
  } else {
    replica.receive(choice(pending));
    if (chance() < 0.5) replica.read();
  }
}
for (const replica of replicas) {
  for (let pending = replica.pending(); pending.length > 0; pending = replica.pending()) replica.receive(pending[0]);
  replica.read();
}
console.log(lines.join("\n"));
