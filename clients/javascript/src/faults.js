// The faults of the network, and the restarts, that are at work in a small run.
import { inspect } from "node:util";
import { earlyArrivals } from "./shrinking.js";

/** Returns a sentence for each fault of these steps, which are counted from 1. */
export function describeFaults(steps, replicas) {
  const early = earlyArrivals(steps);
  const names = replicas.map((it) => inspect(it));
  const taken = new Map();
  const saved = new Map();
  const sentences = [];
  steps.forEach(({ action, replica, number }, place) => {
    const moment = place + 1;
    if (early.has(place)) {
      sentences.push(`message ${number} arrived before message ${early.get(place)}, on which it depends`);
    } else if (action === "duplicate") {
      sentences.push(`message ${number} arrived twice`);
    } else if (action === "snapshot" && !taken.has(number)) {
      taken.set(number, { sender: replica, start: moment });
    } else if (action === "merge_snapshot" && taken.has(number)) {
      const { sender, start } = taken.get(number);
      sentences.push(`a state of ${names[sender]} taken at step ${start} was merged at step ${moment}`);
    } else if (action === "restart") {
      const state = saved.has(replica) ? `state of step ${saved.get(replica)}` : "initial state";
      sentences.push(`${names[replica]} restarted from its ${state}`);
    }
    if (["update", "save", "join"].includes(action)) saved.set(replica, moment);
  });
  return sentences;
}
