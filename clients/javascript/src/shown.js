// What a history's text says that a replica has: the elements of an LWW set, the identifiers of an OR-Set, updates.

/** Returns the updates that were delivered to the replica of this name, in the order of their delivery. */
function deliveredUpdates(commands, replica) {
  const updates = new Map();
  const received = new Map();
  const receive = (name, label) => {
    if (!received.has(name)) received.set(name, []);
    received.get(name).push(label);
  };
  let label = 0;
  for (const command of commands) {
    const [name, word, first, second] = command.split(" ");
    if (name === "join") received.set(word, [...(received.get(first) ?? [])]);
    else if (word === "got") receive(name, Number(first));
    else {
      if (word === "add" || word === "remove") {
        updates.set(label, { name, word, element: Number(first), field: second.slice(1) });
        receive(name, label);
      }
      label += 1;
    }
  }
  return (received.get(replica) ?? []).map((it) => updates.get(it));
}

/** Returns the numbers of the elements of an LWW set that the replica shows, in ascending order. */
export function shownElements(commands, replica, names) {
  const last = new Map();
  for (const { name, word, element, field } of deliveredUpdates(commands, replica)) {
    const entry = { clock: Number(field), place: names.indexOf(name), isIn: word === "add" };
    const { clock, place } = last.get(element) ?? entry;
    const isLater = entry.clock > clock || (entry.clock === clock && entry.place >= place);
    if (isLater) last.set(element, entry);
  }
  const shown = [...last].filter(([, { isIn }]) => isIn).map(([element]) => element);
  return shown.sort((one, other) => one - other);
}

/** Returns the numbers of the identifiers of an OR-Set's element that the replica has, as a set. */
export function observedIdentifiers(commands, replica, element) {
  const observed = new Set();
  for (const { word, element: changed, field } of deliveredUpdates(commands, replica)) {
    if (changed !== element) continue;
    for (const it of parseIdentifiers(field)) word === "add" ? observed.add(it) : observed.delete(it);
  }
  return observed;
}

/** Returns the number of the first read that sees the same updates as the last command, which is a read. */
export function firstEqualRead(commands) {
  const received = new Map();
  const first = new Map();
  const seenBy = (name) => received.get(name) ?? [];
  const keyOf = (name) => [...seenBy(name)].sort((one, other) => one - other).join(" ");
  let label = 0;
  for (const [number, command] of commands.entries()) {
    const [name, word, field] = command.split(" ");
    if (name === "join") {
      received.set(word, seenBy(field));
      continue;
    }
    if (word !== "read") received.set(name, [...seenBy(name), word === "got" ? Number(field) : label]);
    else if (!first.has(keyOf(name))) first.set(keyOf(name), number);
    if (word !== "got") label += 1;
  }
  const [name, word] = commands.at(-1).split(" ");
  return word === "read" ? first.get(keyOf(name)) : undefined;
}

/** Returns the numbers of a field with identifiers. */
export const parseIdentifiers = (field) => (field === "-" || field === "" ? [] : field.split(",").map(Number));
