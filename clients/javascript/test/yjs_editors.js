// Editors of Yjs documents, which type and delete at random, and the network between them. Debian's node-yjs is tested.
import { createRequire } from "node:module";
import { RandomNumbers } from "../src/random_numbers.js";

export const Y = loadYjs();
/** How the documents exchange their changes. */
export const NETWORKS = ["one after another", "in any order", "by state vectors"];
const LETTERS = "abcdefghijklmnopqrstuvwxyz";
const LONGEST_WORD = 5;
const MOST_REMOVED = 4;
// The relative frequency of what an editor does.
const ACTIONS = {
  type: 6, remove: 3, replace: 2, format: 1, embed: 1, push: 3, pull: 2, nest: 1, typeNested: 2, undo: 1,
};
// What an editor does with maps, beside that.
const MAP_ACTIONS = { set: 4, unset: 2, swap: 1, nestMap: 1, setNested: 2 };
// What an editor does with an XML tree and with the attributes of texts, beside that.
const XML_ACTIONS = {
  insertNode: 4, removeNode: 1, setAttribute: 3, unsetAttribute: 1, typeXml: 4, removeXml: 2, formatXml: 3,
  setHook: 1, setTextAttribute: 1,
};
const KEYS = ["title", "size", "owner"];
const ROOTS = { getText: "text", getMap: "map", getXmlFragment: "page" };
const NAMES = ["ann", "bob", "cat", "dan", "eve"];

function loadYjs() {
  try {
    return createRequire(import.meta.url)("yjs");
  } catch (error) {
    const advice = "apt-get install node-yjs, and set NODE_PATH=/usr/share/nodejs";
    throw new Error(`the tests of yehatu/yjs need Yjs: ${advice}`, { cause: error });
  }
}

/** Documents, with the updates that are on their way to each. `loses(update)` says which updates never arrive. */
export class Editors {
  steps = 0;
  #random;
  #network;
  #queues;
  #undo;
  #weights;
  // The calls that open what each document can undo.
  #opened;

  constructor(seed, { clients, network, loses = () => false, maps = false, xml = false } = {}) {
    this.#weights = { ...ACTIONS, ...(maps ? MAP_ACTIONS : {}), ...(xml ? XML_ACTIONS : {}) };
    this.#opened = ["getText", ...(maps ? ["getMap"] : []), ...(xml ? ["getXmlFragment"] : [])];
    this.#random = new RandomNumbers(`Yjs ${seed}`);
    const count = clients ?? this.#random.number(3, 5);
    this.#network = network ?? this.#random.choice(NETWORKS);
    this.names = NAMES.slice(0, count);
    this.docs = this.names.map((_, at) => this.#document(at));
    this.#queues = this.docs.map(() => []);
    this.docs.forEach((doc, sender) => doc.on("update", (update, origin) => {
      if (origin === "network") return;
      this.#queues.forEach((queue, at) => at !== sender && !loses(at) && queue.push({ sender, update }));
    }));
  }

  /** Returns the documents by their names, for `watch`. */
  get named() {
    return Object.fromEntries(this.names.map((name, at) => [name, this.docs[at]]));
  }

  #document(at) {
    const doc = new Y.Doc({ gc: this.#random.chance() < 0.7 });
    doc.clientID = 100 * at + this.#random.number(1, 99);
    return doc;
  }

  /** Lets editors and the network take this number of steps. */
  run(steps) {
    this.#undo ??= this.docs.map((doc) => {
      const types = this.#opened.map((open) => doc[open](ROOTS[open]));
      return new Y.UndoManager(types, { captureTimeout: 0 });
    });
    for (let step = 0; step < steps; step += 1) {
      this.steps += 1;
      const at = this.#random.number(0, this.docs.length - 1);
      if (this.#random.chance() < 0.5) this.#edit(at);
      else this.#exchange(at);
    }
  }

  #edit(at) {
    const action = this.#random.weightedChoice(Object.keys(this.#weights), Object.values(this.#weights));
    const doc = this.docs[at];
    const text = doc.getText("text");
    const array = doc.getArray("array");
    const actions = {
      type: () => this.#type(text),
      remove: () => this.#remove(text),
      replace: () => doc.transact(() => (this.#remove(text), this.#type(text))),
      format: () => text.length > 1 && text.format(0, 2, { bold: this.#random.chance() < 0.5 || null }),
      embed: () => text.insertEmbed(this.#random.number(0, text.length), { image: this.steps }),
      push: () => array.insert(this.#random.number(0, array.length), [this.steps, { step: this.steps }, "same"]),
      pull: () => this.#remove(array),
      nest: () => array.insert(this.#random.number(0, array.length), [new Y.Text(this.#word())]),
      typeNested: () => this.#editNested(array),
      undo: () => this.#undo[at].undo(),
      ...this.#mapActions(doc),
      ...(action in XML_ACTIONS ? this.#xmlActions(doc) : {}),
    };
    actions[action]();
  }

  #mapActions(doc) {
    const map = doc.getMap("map");
    const key = () => this.#random.choice(KEYS);
    const nested = () => [...map.values()].find((it) => it instanceof Y.Map);
    return {
      set: () => map.set(key(), this.#random.choice([this.steps, this.#word(), { step: this.steps }, null])),
      unset: () => map.delete(key()),
      swap: () => doc.transact(() => (map.delete("title"), map.set("size", 1), map.set("size", this.steps))),
      nestMap: () => map.set(key(), new Y.Map([["made", this.steps]])),
      setNested: () => nested()?.set(key(), this.#word()),
    };
  }

  #xmlActions(doc) {
    const page = doc.getXmlFragment("page");
    const nodes = nodesOf(page);
    const some = (type) => this.#random.choice(nodes.filter((it) => it instanceof type));
    const parent = this.#random.choice([page, ...nodes.filter((it) => it instanceof Y.XmlElement)]);
    const [element, xmlText] = [some(Y.XmlElement), some(Y.XmlText)];
    const key = () => this.#random.choice(KEYS);
    return {
      insertNode: () => parent.insert(this.#random.number(0, parent.length), [this.#node()]),
      removeNode: () => this.#remove(parent),
      setAttribute: () => element?.setAttribute(key(), this.#word()),
      unsetAttribute: () => element?.removeAttribute(key()),
      typeXml: () => xmlText && this.#type(xmlText),
      removeXml: () => xmlText && this.#remove(xmlText),
      formatXml: () => xmlText && this.#format(xmlText),
      setHook: () => some(Y.XmlHook)?.set(key(), this.steps),
      setTextAttribute: () => (xmlText ?? doc.getText("text")).setAttribute(key(), this.steps),
    };
  }

  /** Returns a new node of an XML tree, most of which have something in them. */
  #node() {
    const chance = this.#random.chance();
    const hook = new Y.XmlHook("hook");
    if (chance < 0.1) hook.set("made", this.steps);
    if (chance < 0.1) return hook;
    if (chance < 0.5) return new Y.XmlText(this.#word());
    const element = new Y.XmlElement(this.#random.choice(["p", "h1"]));
    if (chance < 0.8) element.insert(0, [new Y.XmlText(this.#word())]);
    if (chance < 0.7) element.setAttribute("made", String(this.steps));
    return element;
  }

  #format(text) {
    const [first, length] = [this.#random.number(0, text.length), this.#random.number(1, LONGEST_WORD)];
    const format = this.#random.choice([{ bold: true }, { bold: null }, { link: { to: this.steps } }]);
    text.format(first, Math.min(length, text.length - first), format);
  }

  #word() {
    return Array.from({ length: this.#random.number(1, LONGEST_WORD) }, () => this.#random.choice(LETTERS)).join("");
  }

  #type(text) {
    text.insert(this.#random.number(0, text.length), this.#word());
  }

  #remove(list) {
    if (list.length === 0) return;
    const index = this.#random.number(0, list.length - 1);
    list.delete(index, Math.min(this.#random.number(1, MOST_REMOVED), list.length - index));
  }

  #editNested(array) {
    const nested = array.toArray().filter((it) => it instanceof Y.Text);
    if (nested.length === 0) return;
    const text = this.#random.choice(nested);
    if (this.#random.chance() < 0.6) this.#type(text);
    else this.#remove(text);
  }

  /** Lets the document receive something. */
  #exchange(at) {
    if (this.#network === "by state vectors") {
      synchronize(this.#random.choice(this.docs), this.docs[at]);
      return;
    }
    const queue = this.#queues[at];
    if (queue.length === 0) return;
    // The updates of one sender arrive in their order, or all in any order.
    const chosen = this.#random.number(0, queue.length - 1);
    const { sender } = queue[chosen];
    const place = this.#network === "in any order" ? chosen : queue.findIndex((it) => it.sender === sender);
    const [{ update }] = queue.splice(place, 1);
    Y.applyUpdate(this.docs[at], update, "network");
    if (this.#random.chance() < 0.1) Y.applyUpdate(this.docs[at], update, "network");
  }

  /** Lets all updates that are on their way arrive. */
  deliverAll() {
    this.#queues.forEach((queue, at) => {
      for (const { update } of queue.splice(0)) Y.applyUpdate(this.docs[at], update, "network");
    });
  }

  /** Lets each document receive what any other one has. */
  synchronizeAll() {
    for (const from of this.docs) for (const to of this.docs) synchronize(from, to);
    for (const from of this.docs) for (const to of this.docs) synchronize(from, to);
  }

  /** Returns what each document shows, as texts. */
  shown() {
    return this.docs.map((doc) =>
      JSON.stringify([
        shownText(doc.getText("text")), doc.getArray("array").toJSON(), sortedEntries(doc.getMap("map").toJSON()),
        doc.getXmlFragment("page").toArray().map(shownNode),
      ]),
    );
  }
}

/** Returns the entries of an object, and those of objects in it, in the order of their keys. */
function sortedEntries(value) {
  if (typeof value !== "object" || value === null) return value;
  return Object.keys(value).sort().map((key) => [key, sortedEntries(value[key])]);
}

/** Returns the characters and embeds of a text, each with its format, and the attributes of the text. */
function shownText(text) {
  const units = ({ insert, attributes }) =>
    [...(typeof insert === "string" ? insert : [insert])].map((it) => [it, sortedEntries(attributes ?? {})]);
  return [text.toDelta().flatMap(units), sortedEntries(text.getAttributes())];
}

function shownNode(node) {
  if (node instanceof Y.XmlText) return shownText(node);
  if (node instanceof Y.XmlHook) return [node.hookName, sortedEntries(node.toJSON())];
  return [node.nodeName, sortedEntries(node.getAttributes()), node.toArray().map(shownNode)];
}

/** Returns the nodes below a node of an XML tree. */
function nodesOf(node) {
  return node.toArray().flatMap((it) => [it, ...(it instanceof Y.XmlElement ? nodesOf(it) : [])]);
}

/** Lets a document receive what another one has and it lacks. */
export function synchronize(from, to) {
  if (from !== to) Y.applyUpdate(to, Y.encodeStateAsUpdate(from, Y.encodeStateVector(to)), "network");
}
