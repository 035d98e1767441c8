// Reports the shared types of Yjs documents to the monitor: `watch(docs)`, and `close()` at the end of the test.
import { inspect } from "node:util";
import { NotRepresentable } from "../src/errors.js";
import { defaultNames } from "../src/profile.js";
import { Recorder } from "../src/recorder.js";
import * as unclosed from "../src/unclosed.js";
import { changesOf, clockOf, isFormat, isRemoved, keyOf, typeName } from "./items.js";
import { Elements, ListView } from "./list.js";
import { ValueView } from "./value.js";
import { WatchedObject } from "./watched.js";

/**
 * Reports what happens in these documents from now on: each `Y.Array` and `Y.Text` as the kind `list`, and each other
 * shared type, and the formatting of a `Y.Text`, as the kind `any`, to a monitor of its own. The documents are a list,
 * or an object or a `Map` with their names. They are empty still, and all that change each other are among them.
 */
export const watch = (docs, options) => new Watcher(docs, options);

const LISTS = ["Y.Array", "Y.Text"];
const VALUES = ["Y.Map", "Y.XmlFragment", "Y.XmlElement", "Y.XmlText", "Y.XmlHook"];

/** A document, with the clients that it was so far: Yjs changes the number of one whose number another one uses. */
class Replica {
  /** The transaction whose changes are not reported yet. */
  open = null;
  #clients = [];

  constructor(name, doc) {
    this.name = name;
    this.doc = doc;
  }

  /** Returns the name of a unit's identity. */
  ownerOf({ client, clock }) {
    if (!this.#clients.includes(client)) this.#clients.push(client);
    const number = this.#clients.indexOf(client) + 1;
    return `${this.name}${number > 1 ? `/${number}` : ""}:${clock}`;
  }
}

/** What is watched. `close()` ends it. */
export class Watcher {
  #replicas;
  #options;
  #elements = new Elements();
  // The watched objects by the keys of their shared types. A text is two: its list and its formatting.
  #objects = new Map();
  // The descriptions of what is not checked.
  #unchecked = new Set();
  #handlers = [];
  #failure = null;
  #openKey;
  #end;

  constructor(docs, { program, window, history } = {}) {
    this.#replicas = namedDocuments(docs).map(([name, doc]) => new Replica(name, doc));
    this.#options = { program, window, history, mustClose: false };
    this.#replicas.forEach((replica, index) => this.#listen(replica, index));
    this.#openKey = unclosed.register(this, `the watch(..) that was called at ${unclosed.placeOf(new Error().stack)}`);
  }

  /** Reports what a user of this shared type sees, such as an editor with a copy of a text. */
  read(type, shown) {
    const index = this.#replicas.findIndex((it) => it.doc === type.doc);
    if (index < 0) throw new TypeError("the shared type is of no watched document");
    if (type.doc._transaction !== null) throw new Error("a transaction is running: report what is shown after it");
    this.#report(index);
    const values = typeof shown === "string" ? shown.split("") : shown;
    const isList = typeof values?.[Symbol.iterator] === "function";
    const object = this.#objectsOf(type).find((it) => (it.kind === "list") === isList);
    if (object === undefined || typeof values !== "object") {
      const expected = isList ? "an object" : "a text or a list";
      throw new TypeError(`${this.#labelOf(type)} is shown as ${inspect(shown)}: expected ${expected}`);
    }
    this.#guarded(() => {
      object.begin();
      object.read(index, isList ? [...values] : values);
    });
  }

  /** Waits for the replies to all reports so far. Rejects with the first failure. */
  async settle() {
    if (this.#failure !== null) throw this.#failure;
    for (const { label, recorder } of this.#begun()) await named(label, recorder.settle());
  }

  /**
   * Ends the reports, and returns how many there were. Rejects with the first failure, a `NotLinearizable` or a
   * `NotRepresentable`. Each document has to have received all changes, unless `complete` is false.
   */
  close({ complete = true } = {}) {
    this.#end ??= this.#close(complete);
    return this.#end;
  }

  /** Ends the reports without waiting for replies. */
  async stop() {
    unclosed.close(this.#openKey);
    for (const [doc, event, handler] of this.#handlers.splice(0)) doc.off(event, handler);
    await Promise.all(this.#begun().map(({ recorder }) => recorder.stop()));
  }

  async #close(isComplete) {
    for (const [index, { doc }] of this.#replicas.entries()) if (doc._transaction === null) this.#report(index);
    const objects = this.#begun();
    try {
      for (const it of objects) this.#guarded(() => it.finish(isComplete));
      if (this.#failure !== null) throw this.#failure;
      if (objects.length === 0) {
        throw new NotRepresentable("no shared type changed while it was watched, so nothing was checked");
      }
      const reports = [];
      for (const { label, recorder } of objects) {
        reports.push({ name: label, ...(await named(label, recorder.close())) });
      }
      return this.#summaryOf(objects, reports);
    } finally {
      await this.stop();
    }
  }

  #summaryOf(objects, reports) {
    const tooLong = objects.filter((it) => it.isTooLong).map(({ label }) => `${label}, while it was too long`);
    return {
      labels: reports.reduce((sum, it) => sum + it.labels, 0),
      lists: reports.filter((it) => it.kind === "list"),
      objects: reports.filter((it) => it.kind === "any"),
      held: objects.reduce((sum, it) => sum + it.held, 0),
      unchecked: [...this.#unchecked, ...tooLong],
    };
  }

  /** Returns all watched objects. */
  #all() {
    return [...this.#objects.values()].flat();
  }

  /** Returns the watched objects that are reported. */
  #begun() {
    return this.#all().filter(({ recorder }) => recorder !== null);
  }

  // A transaction is reported when it has ended, before its observers are called, which may begin others.
  #listen(replica, index) {
    this.#on(replica.doc, "beforeTransaction", (transaction) => {
      this.#report(index);
      replica.open = transaction;
    });
    this.#on(replica.doc, "beforeObserverCalls", (transaction) => {
      if (replica.open === transaction) this.#report(index);
    });
  }

  /**
   * Reports the transaction of this document that is not reported yet, if there is one. That of an observer has ended,
   * and is otherwise reported when another one begins or when the observers have returned.
   */
  #report(index) {
    const replica = this.#replicas[index];
    const transaction = replica.open;
    replica.open = null;
    if (transaction !== null) this.#guarded(() => this.#observe(index, transaction));
  }

  #on(doc, event, handler) {
    doc.on(event, handler);
    this.#handlers.push([doc, event, handler]);
  }

  /** Runs this unless an earlier one failed. The failure is thrown when the watcher is closed. */
  #guarded(act) {
    if (this.#failure !== null) return;
    try {
      act();
    } catch (error) {
      this.#failure = error;
    }
  }

  /** Reports what a transaction of this document did and received. */
  #observe(index, transaction) {
    const { doc } = this.#replicas[index];
    const before = (client) => transaction.beforeState.get(client) ?? 0;
    const others = [...doc.store.clients.keys()].filter((it) => it !== doc.clientID);
    const hasReceived = others.some((it) => clockOf(doc, it) > before(it));
    const touched = new Set([...transaction.changed.keys()].flatMap((it) => this.#objects.get(keyText(it)) ?? []));
    if (!transaction.local || hasReceived) {
      for (const it of this.#all()) if (it.receive(index)) touched.add(it);
    }
    if (transaction.local) {
      for (const [type, changes] of changesOf(transaction)) {
        for (const it of this.#change(index, type, changes)) touched.add(it);
      }
    }
    for (const it of touched) it.read(index);
  }

  /** Reports what a transaction did to this shared type. Returns the objects that it changed. */
  #change(index, type, changes) {
    if (isRemoved(type)) return [];
    const objects = this.#objectsOf(type);
    const items = changes.inserted.map(({ item }) => item);
    if (items.some(({ content }) => content?.doc !== undefined)) {
      this.#noteUnchecked(`a subdocument in ${this.#labelOf(type)}`, "watch it by itself");
    }
    const isFormatted = items.some((it) => it.parentSub !== null || isFormat(it));
    for (const it of objects) {
      if (isFormatted) it.begin();
      it.change(index, changes);
    }
    return objects;
  }

  /** Returns the watched objects of a shared type, or none if it is unknown, which is noted. */
  #objectsOf(type) {
    const text = keyText(type);
    if (!this.#objects.has(text)) this.#objects.set(text, this.#created(type));
    return this.#objects.get(text);
  }

  #created(type) {
    const name = typeName(type);
    const label = this.#labelOf(type);
    if (LISTS.includes(name)) {
      const list = this.#watched(type, { label, kind: "list" });
      list.begin();
      if (name !== "Y.Text") return [list];
      // Most texts have no formatting, which begins with the first format or attribute.
      return [list, this.#watched(type, { label: `the formatting of ${label}`, kind: "any" })];
    }
    if (VALUES.includes(name)) {
      const value = this.#watched(type, { label, kind: "any" });
      value.begin();
      return [value];
    }
    this.#noteUnchecked(label, "it is no shared type of Yjs that is known");
    return [];
  }

  #watched(type, { label, kind }) {
    const name = typeName(type);
    const replicas = this.#replicas;
    const view = kind === "list" ? new ListView({ name, replicas, elements: this.#elements }) : new ValueView(name);
    const key = type._item ? { id: type._item.id } : { root: keyOf(type) };
    const createRecorder = () => new Recorder(kind, replicas.map((it) => it.name), this.#options);
    return new WatchedObject({ label, kind, key, view, replicas, createRecorder });
  }

  #labelOf(type) {
    if (!type._item) return `${typeName(type)} ${inspect(keyOf(type))}`;
    const node = type.nodeName ?? type.hookName;
    return `${typeName(type)}${node === undefined ? "" : ` <${node}>`} in the item ${keyOf(type)}`;
  }

  #noteUnchecked(label, reason) {
    if (this.#unchecked.has(label)) return;
    this.#unchecked.add(label);
    process.emitWarning(`${label} is not checked: ${reason}`, "YehatuWarning");
  }
}

const keyText = (type) => `${type._item ? "item" : "root"} ${keyOf(type)}`;

/** Waits for a result. An error says in which object it is. */
async function named(label, pending) {
  try {
    return await pending;
  } catch (error) {
    error.message = `${label}: ${error.message}`;
    throw error;
  }
}

/** Returns the documents with their names. */
function namedDocuments(docs) {
  const isList = Array.isArray(docs);
  const entries = docs instanceof Map ? [...docs] : Object.entries(docs ?? {});
  const names = isList ? defaultNames(docs.length) : entries.map(([name]) => name);
  const found = entries.map(([, doc], at) => [names[at], doc]);
  for (const [name, doc] of found) {
    const isDocument = typeof doc?.on === "function" && doc.store?.clients instanceof Map && doc.share instanceof Map;
    if (!isDocument) throw new TypeError(`${inspect(name)} is ${inspect(doc, { depth: 0 })}: expected a Y.Doc`);
    if (doc.store.clients.size > 0) {
      throw new NotRepresentable(`${inspect(name)} has content: watch documents before their first change`);
    }
  }
  if (found.length === 0 || new Set(found.map(([, doc]) => doc)).size < found.length) {
    throw new TypeError("expected a list of distinct documents, or an object with their names");
  }
  return found;
}
