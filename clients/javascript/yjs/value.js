// The shared types of Yjs that are no lists, and formatted texts, which are reported as the kind `any`.
//
// Each type is an object by itself, also within an XML tree: reads are compared when they follow the same changes,
// which those of one element do more often than those of a whole tree, and a violation names the element.
import { isDeepStrictEqual } from "node:util";
import { update } from "../src/operations.js";
import { entriesOf, formattedPartsOf, unitsOf } from "./items.js";
import { representedBy } from "./shown.js";

const TEXTS = ["Y.XmlText", "Y.Text"];
const MAPS = ["Y.Map", "Y.XmlHook"];

/** What a type of the kind `any` shows. Each change of it is an update, of which nothing else is said. */
export class ValueView {
  #name;
  // The removed items by their identities, each with the messages that removed it.
  #removed = new Map();

  /** `name` is its kind of shared type. */
  constructor(name) {
    this.#name = name;
  }

  /** Returns the update of a change, and the items that it removed. */
  changeOf(_replica, _type, changes) {
    return { operations: [update()], removed: changes.removed.map((it) => this.#removedItem(it)) };
  }

  #removedItem({ client, clock }) {
    const key = `${client}:${clock}`;
    if (!this.#removed.has(key)) this.#removed.set(key, { client, clock, removals: [] });
    return this.#removed.get(key);
  }

  /** Returns what this type shows, or what its user sees. A document that lacks the type shows nothing. */
  valueOf(_replica, type, shown) {
    const isMap = MAPS.includes(this.#name);
    const isText = TEXTS.includes(this.#name);
    if (isMap) return representedEntries(shown ?? entriesShown(type, "entries"));
    const attributes = representedEntries(shown?.attributes ?? entriesShown(type, "getAttributes"));
    if (isText) return { text: joined(shown?.text ?? textShown(type)), attributes };
    return { children: (shown?.children ?? childrenShown(type)).map(representedBy), attributes };
  }
}

// What a type shows, as its user gets it. One that this document did not open yet has no such calls, and shows its
// items. `toDelta` of Yjs 13.5 begins an empty transaction, which is reported as one that changed nothing.
const resultOf = (type, method, fromItems) => (typeof type[method] === "function" ? type[method]() : fromItems(type));
const entriesShown = (type, method) => (type === undefined ? {} : resultOf(type, method, entriesOf));
const childrenShown = (type) =>
  type === undefined ? [] : resultOf(type, "toArray", () => unitsOf(type).map(({ value }) => value));
const textShown = (type) => (type === undefined ? [] : resultOf(type, "toDelta", formattedPartsOf));

/** Returns these entries, which are an object or pairs, as an object of plain data. */
function representedEntries(entries) {
  const pairs = typeof entries[Symbol.iterator] === "function" ? [...entries] : Object.entries(entries);
  return Object.fromEntries(pairs.map(([key, value]) => [key, representedBy(value)]));
}

/** Returns a formatted text whose neighbours of one format are joined: where Yjs divides it, a user does not see. */
function joined(parts) {
  const text = [];
  for (const { insert, attributes = {} } of parts) {
    const last = text.at(-1);
    const areTexts = typeof insert === "string" && typeof last?.insert === "string";
    if (areTexts && isDeepStrictEqual(last.attributes, attributes)) last.insert += insert;
    else text.push({ insert, attributes });
  }
  return text.map(({ insert, attributes }) => ({ insert: representedBy(insert), attributes }));
}
