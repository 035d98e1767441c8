// One order of the events of several replicas: each replica's own, and each update before its deliveries.
import { DELIVER, LogFault, PART, READ, shown } from "./log_lines.js";

// The largest number of lines that the fault of a cycle names.
const SHOWN_LINES = 4;

/**
 * Returns the events of one object in their order in the files, but each behind what it depends on: the one before it
 * at its replica, and a delivery's update. No wall clock matters. Updates come early, so that an explanation of a read
 * can name an update that was delivered too late. Throws `LogFault` if no line has an update of a delivered message, or
 * lines wait for each other.
 */
export function merge(events) {
  const senders = sendersOf(events);
  const unsent = events.find((it) => it.operation === DELIVER && !senders.has(it.message));
  if (unsent !== undefined) throw neverSent(unsent);
  const previous = previousOfReplicas(events);
  const placed = new Set();
  const updateOf = (event) => (event.operation === DELIVER ? senders.get(event.message) : undefined);
  const lacking = (event) => [updateOf(event), previous.get(event)].find((it) => it !== undefined && !placed.has(it));
  const returns = ({ operation }) => operation === READ || operation === PART;
  const [reads, others] = [true, false].map((isRead) => events.filter((it) => returns(it) === isRead));
  for (const event of [...others, ...reads]) placeWithDependencies(event, lacking, placed, senders);
  return [...placed];
}

/** Places an event behind what it lacks. A stack of its own is used, since chains of events are as long as the log. */
function placeWithDependencies(first, lacking, placed, senders) {
  const stack = [first];
  const open = new Set();
  while (stack.length > 0) {
    const event = stack.at(-1);
    const next = lacking(event);
    if (next === undefined) {
      placed.add(stack.pop());
    } else {
      open.add(event);
      if (open.has(next)) throw cycle(stack.slice(stack.indexOf(next)), senders);
      stack.push(next);
    }
  }
}

/** Returns the event before each event at its replica. */
function previousOfReplicas(events) {
  const last = new Map();
  const previous = new Map();
  for (const event of events) {
    previous.set(event, last.get(event.replica));
    last.set(event.replica, event);
  }
  return previous;
}

/** Returns the update of each message. Throws `LogFault` if two updates have one key. */
function sendersOf(events) {
  const senders = new Map();
  for (const event of events) {
    if (event.operation === DELIVER || event.message === undefined) continue;
    const other = senders.get(event.message);
    if (other !== undefined) {
      throw new LogFault(event.place,
        `the field "message" is ${shown(event.message)}, which ${other.place} has too: expected a key that no other ` +
          "update of the object has");
    }
    senders.set(event.message, event);
  }
  return senders;
}

function neverSent(event) {
  return new LogFault(event.place,
    `the field "message" is ${shown(event.message)}, and no update of this object has this message: expected the key ` +
      "of an update; check the key, and pass the log of the replica that made the update too");
}

/** Creates the fault of lines that wait for each other, each for the next one: deliveries wait for later updates. */
function cycle(chain, senders) {
  const waiting = chain.filter((it, at) => {
    const next = chain[(at + 1) % chain.length];
    return it.operation === DELIVER && senders.get(it.message) === next;
  });
  const first = waiting.reduce((one, other) => (one.number < other.number ? one : other));
  const at = waiting.indexOf(first);
  const parts = [...waiting.slice(at), ...waiting.slice(0, at)].slice(0, SHOWN_LINES)
    .map((it) => `${it.place} delivers ${shown(it.message)}, which ${senders.get(it.message).place} sends`);
  return new LogFault(first.place,
    `the field "message" is ${shown(first.message)}, and no order of the lines has each update before its ` +
      `deliveries (${parts.join("; ")}): expected each replica's lines in the order in which they happened there`);
}
