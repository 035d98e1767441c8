// Yjs, run by the random driver: NODE_PATH=/usr/share/nodejs node examples/libraries/yjs.mjs
//
// The lists of Yjs are judged as the kind `list`: whatever the writers do at the same time, one order of all elements
// explains each read. A key of a map is no last-writer-wins register by a clock: where replicas write at the same time
// Yjs decides by client number. Where one writes at a time, and all that was written has come before the next one
// writes, each of its answers is that of a register.
import { createRequire } from "node:module";
import { NotLinearizable, Recorder, checkRandom, inserted } from "../../clients/javascript/index.js";

const Y = createRequire(import.meta.url)("yjs");
const NAMES = ["a", "b", "c"];
// Behind it are many characters of one code unit each, which is what Yjs counts.
const FIRST_LETTER = 0x4e00;
const LETTERS = 4_000;
const RUNS = 20;
const LIST_RUNS = 200;
const ROUNDS = 60;

// Random numbers that are the same each time.
let last = 1;
const chance = () => (last = (last * 48_271) % 2_147_483_647) / 2_147_483_647;
const choice = (list) => list[Math.floor(chance() * list.length)];

/** A replica with its document. */
class Document {
  doc = new Y.Doc();

  constructor(name) {
    this.name = name;
    this.doc.clientID = NAMES.indexOf(name) + 1;
  }

  /** Makes a change, and returns the update that Yjs hands out for the others. */
  changed(change) {
    let update;
    this.doc.once("update", (bytes) => (update = bytes));
    change();
    return { update };
  }

  receive({ update }) {
    Y.applyUpdate(this.doc, update);
  }
}

/** An array as a list. */
class YjsList extends Document {
  array = this.doc.getArray("list");

  insert(index, element) {
    return this.changed(() => this.array.insert(index, [element]));
  }

  delete(index) {
    return this.changed(() => this.array.delete(index, 1));
  }

  read() {
    return this.array.toArray();
  }
}

/** A text as a list of characters that are all distinct, since it shows no more of them. */
class YjsText extends Document {
  text = this.doc.getText("text");
  // The characters have numbers in the order of their use, since elements may be large numbers.
  static elements = [];

  insert(index, element) {
    const known = YjsText.elements.indexOf(element);
    const number = known < 0 ? YjsText.elements.push(element) - 1 : known;
    if (number >= LETTERS) throw new RangeError("there are too many elements");
    return this.changed(() => this.text.insert(index, String.fromCodePoint(FIRST_LETTER + number)));
  }

  delete(index) {
    return this.changed(() => this.text.delete(index, 1));
  }

  read() {
    return Array.from(this.text.toString(), (it) => YjsText.elements[it.codePointAt(0) - FIRST_LETTER]);
  }
}

/** A list with a bug in the code round it: each fourth update of the others is lost. */
class LosesUpdates extends YjsList {
  received = 0;

  receive(message) {
    this.received += 1;
    if (this.received % 4 > 0) super.receive(message);
  }
}

/** One key of a map as a register, with a clock above all that its replica has seen. */
class YjsRegister extends Document {
  map = this.doc.getMap("map");
  clock = 0;

  write(value) {
    this.clock += 1;
    return { ...this.changed(() => this.map.set("key", value)), clock: this.clock, stamp: [this.clock, this.name] };
  }

  receive(message) {
    this.clock = Math.max(this.clock, message.clock);
    super.receive(message);
  }

  read() {
    return this.map.get("key");
  }
}

/** Inserts an element, and reports it with the elements that are shown on both sides. */
function insert(recorder, replica, index, element) {
  const operation = inserted(replica.read(), index, element);
  return recorder.update(replica.name, operation, { act: () => replica.insert(index, element), message: element });
}

/** Two write at the same time and exchange their updates, as a running system would report it. */
async function exchange() {
  const recorder = new Recorder("list", NAMES);
  const [ann, bob] = NAMES.map((name) => new YjsList(name));
  for (let element = 1; element < 2 * ROUNDS; element += 2) {
    const sent = [];
    for (const [replica, added] of [[ann, element], [bob, element + 1]]) {
      sent.push([replica, await insert(recorder, replica, Math.floor(chance() * (replica.read().length + 1)), added)]);
    }
    for (const [at, [sender, update]] of sent.entries()) {
      const receiver = sender === ann ? bob : ann;
      await recorder.deliver(receiver.name, element + at, { act: () => receiver.receive(update) });
      await recorder.read(receiver.name, () => receiver.read());
    }
  }
  return recorder.close();
}

/** One writes a register, it comes to all, and all read. */
async function oneAtATime() {
  const recorder = new Recorder("register", NAMES);
  const replicas = NAMES.map((name) => new YjsRegister(name));
  for (let round = 1; round <= ROUNDS; round += 1) {
    const writer = choice(replicas);
    const options = { act: () => writer.write(round), message: round };
    const sent = await recorder.write(writer.name, round, (it) => it.stamp, options);
    for (const replica of replicas) {
      if (replica !== writer) await recorder.deliver(replica.name, round, { act: () => replica.receive(sent) });
      await recorder.read(replica.name, () => replica.read());
    }
  }
  return recorder.close();
}

/** Returns the failure of random runs. */
async function failureOf(make, kind) {
  const failed = await checkRandom(make, kind, NAMES).catch((error) => error);
  if (!(failed instanceof NotLinearizable)) throw failed;
  return failed.message;
}

for (const make of [YjsList, YjsText]) {
  const { runs } = await checkRandom(make, "list", { replicas: NAMES, seeds: LIST_RUNS });
  console.log(`${make.name} as list, all at a time: ${runs} runs are answered yes`);
}
console.log(`two writers: ${(await exchange()).labels} labels are answered yes`);
console.log(`a list that loses updates: it is found\n${await failureOf(LosesUpdates, "list")}\n`);
for (let run = 0; run < RUNS; run += 1) await oneAtATime();
console.log(`YjsRegister as register, one writer at a time: ${RUNS} runs are answered yes`);
const failure = await failureOf(YjsRegister, "register");
console.log(`YjsRegister as register, all at a time: it decides otherwise\n${failure}\n`);
