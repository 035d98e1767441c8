// What a user sees of a list of Yjs, and which elements that is.
import { inspect } from "node:util";
import { keyOf } from "./items.js";

const LONGEST_VALUE = 24;

/** Returns a short text for a value of an element. */
export function shortly(value) {
  if (typeof value === "string" && value.length === 1) return value;
  const isType = typeof value?.doc === "object" && "_start" in value;
  const text = isType ? "a shared type" : inspect(value, { breakLength: Infinity, depth: 1 });
  return text.length > LONGEST_VALUE ? `${text.slice(0, LONGEST_VALUE)}..` : text;
}

/** Returns the name of an element, or, if the value that is shown is not the one that was inserted, another name. */
export function shownName({ name, value }, shown) {
  const isKept = Object.is(value, shown) || (typeof value === "object" && typeof shown === "object");
  return isKept ? name : `${shortly(shown)} in the place of ${name}`;
}

/**
 * Returns the values that a list shows, as its user gets them: the code units of a text, whose embeds `toString` leaves
 * out, or the elements of an array. A type that this replica did not open yet shows its units.
 */
export function valuesOf(type, name, units) {
  if (name === "Y.Text" && typeof type.toDelta === "function") return type.toString().split("");
  if (name === "Y.Array" && typeof type.toArray === "function") return type.toArray();
  return compared(units, name).map((it) => it.value);
}

/**
 * Returns what represents a value in a read of another object. A shared type is watched by itself, so its identity
 * represents it, with the name of an XML element, which never changes.
 */
export function representedBy(value) {
  if (typeof value !== "object" || value === null) return value;
  if ("_start" in value) {
    const node = value.nodeName ?? value.hookName;
    const name = node === undefined ? "a shared type" : `a shared type <${node}>`;
    return `${name}, ${value._item ? keyOf(value) : "not in a document"}`;
  }
  return "guid" in value && "share" in value ? `a document, ${value.guid}` : value;
}

/** Returns the units whose values are compared with those that are shown. */
const compared = (units, name) => (name === "Y.Text" ? units.filter((it) => it.isText) : units);

const areSame = (one, other) => one.length === other.length && one.every((it, at) => Object.is(it, other[at]));

/**
 * Returns the elements of the values that a list shows. If they are the values of its units, these are the elements. If
 * they are those of an earlier read, that one is repeated. Otherwise the values that are no unit's, between those at
 * both ends that are, get elements of their own, which no one has inserted.
 */
export function elementsOf(values, units, name, nameOf, earlier) {
  const known = compared(units, name);
  if (areSame(values, known.map((it) => it.value))) return units.map(nameOf);
  if (earlier !== undefined && areSame(values, earlier.values)) return earlier.elements;
  let front = 0;
  while (front < values.length && Object.is(values[front], known[front]?.value)) front += 1;
  const most = Math.min(values.length, known.length) - front;
  let back = 0;
  while (back < most && Object.is(values.at(-1 - back), known.at(-1 - back).value)) back += 1;
  const foreign = values.slice(front, values.length - back)
    .map((it, at) => `${shortly(it)} (no item of Yjs, at index ${front + at})`);
  return [...known.slice(0, front).map(nameOf), ...foreign, ...known.slice(known.length - back).map(nameOf)];
}
