// What Yjs keeps of a document: its items, which have identities, behind the values that it shows.
//
// A character, or an element of an array, is known by the client that made it and a clock (`item.id`). Yjs shows values
// alone, so identities are read from the items. Their names here are those of all versions 13 of Yjs.

/** Returns what kind of shared type this is, such as `Y.Text`, or `an unopened type` for one that is not known. */
export function typeName(type) {
  const has = (method) => typeof type[method] === "function";
  if (has("toDOM")) return xmlName(has);
  if (has("toDelta")) return "Y.Text";
  if (has("push") && has("toArray")) return "Y.Array";
  return has("set") && has("entries") ? "Y.Map" : "an unopened type";
}

function xmlName(has) {
  if (has("toDelta")) return "Y.XmlText";
  if (has("entries")) return "Y.XmlHook";
  return has("getAttributes") ? "Y.XmlElement" : "Y.XmlFragment";
}

/** Returns the number of clocks of this client that the document has: its entry in the state vector. */
export function clockOf(doc, client) {
  const last = doc.store.clients.get(client)?.at(-1);
  return last === undefined ? 0 : last.id.clock + last.length;
}

/** Returns the index of the struct that has this clock, in a list of structs of one client. */
function indexOfClock(structs, clock) {
  let [first, last] = [0, structs.length - 1];
  while (first < last) {
    const middle = (first + last + 1) >> 1;
    if (structs[middle].id.clock <= clock) first = middle;
    else last = middle - 1;
  }
  return first;
}

/** Returns the item with this identity, or what Yjs left of it, or undefined if the document does not have it. */
export function structAt(doc, client, clock) {
  if (clock >= clockOf(doc, client)) return undefined;
  const structs = doc.store.clients.get(client);
  return structs[indexOfClock(structs, clock)];
}

/** Yields what a client's items have in these clocks: each with the item, the first clock and their number. */
function* partsFrom(doc, client, start, end) {
  const structs = doc.store.clients.get(client) ?? [];
  if (start >= Math.min(end, clockOf(doc, client))) return;
  for (let at = indexOfClock(structs, start); at < structs.length && structs[at].id.clock < end; at += 1) {
    const item = structs[at];
    const clock = Math.max(start, item.id.clock);
    yield { item, client, clock, length: Math.min(end, item.id.clock + item.length) - clock };
  }
}

/**
 * Returns what a local transaction did, by the shared types that it changed: the parts of items that it inserted, and
 * the identities that it removed. It has to be called before Yjs collects the items that the transaction removed.
 */
export function changesOf(transaction) {
  const { doc, beforeState, deleteSet } = transaction;
  const changes = new Map();
  const changeOf = (type) => {
    if (!changes.has(type)) changes.set(type, { inserted: [], removed: [] });
    return changes.get(type);
  };
  for (const part of partsFrom(doc, doc.clientID, beforeState.get(doc.clientID) ?? 0, Infinity)) {
    if (part.item.parent) changeOf(part.item.parent).inserted.push(part);
  }
  for (const { item, client, clock, length } of removedParts(doc, deleteSet)) {
    if (!item.parent) continue;
    const { removed } = changeOf(item.parent);
    for (let at = 0; at < length; at += 1) removed.push({ client, clock: clock + at });
  }
  return changes;
}

function* removedParts(doc, { clients }) {
  for (const [client, ranges] of clients) {
    for (const { clock, len } of ranges) yield* partsFrom(doc, client, clock, clock + len);
  }
}

/** Returns the units that a list shows, in their order: each with its identity, its value, and whether it is text. */
export function unitsOf(type) {
  const units = [];
  for (let item = type._start; item !== null; item = item.right) {
    if (item.deleted || !item.countable) continue;
    const isText = typeof item.content.str === "string";
    const { client, clock } = item.id;
    item.content.getContent().forEach((value, at) => units.push({ client, clock: clock + at, value, isText }));
  }
  return units;
}

/** Returns the entries that a map shows, or the attributes of another type. */
export function entriesOf(type) {
  const shown = [...type._map].filter(([, item]) => !item.deleted);
  return Object.fromEntries(shown.map(([key, item]) => [key, item.content.getContent()[item.length - 1]]));
}

/** Returns whether an item says how the text behind it is formatted. */
export const isFormat = ({ countable, content }) => !countable && typeof content?.key === "string";

/** Returns the texts and embeds that a text shows, each with its format. */
export function formattedPartsOf(type) {
  const parts = [];
  const format = new Map();
  for (let item = type._start; item !== null; item = item.right) {
    if (item.deleted) continue;
    const { content } = item;
    if (isFormat(item)) {
      if (content.value === null) format.delete(content.key);
      else format.set(content.key, content.value);
    }
    const inserts = typeof content.str === "string" ? [content.str] : content.getContent();
    for (const insert of inserts) parts.push({ insert, attributes: Object.fromEntries(format) });
  }
  return parts;
}

/** Returns whether the type was removed, with the one that holds it or by itself. */
export function isRemoved(type) {
  for (let item = type._item; item; item = item.parent._item) {
    if (item.deleted || item.parent === null) return true;
  }
  return false;
}

/** Returns the key of a shared type, which is the same in each document: a name, or the identity of its item. */
export function keyOf(type) {
  if (type._item) return `${type._item.id.client}:${type._item.id.clock}`;
  for (const [name, root] of type.doc.share) if (root === type) return name;
  return undefined;
}

/** Returns the type of this key in a document, or undefined if the document does not have it. */
export function typeOf(doc, { root, id }) {
  if (id === undefined) return doc.share.get(root);
  return structAt(doc, id.client, id.clock)?.content?.type;
}
