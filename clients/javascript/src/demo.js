// The demonstration: a register with a bug, its shrunk failure, and the page about it.
import { readFileSync } from "node:fs";
import { NotLinearizable } from "./errors.js";
import { checkRandom } from "./random_runs.js";

const INTRODUCTION = `\
A replicated register in which the greater clock should win, and of equal clocks the later name. This one has a bug:
of equal clocks, the write that arrives last wins. checkRandom runs three replicas at random, and shrinks what fails:
`;

/** A last-writer-wins register with a bug: `>=` takes the later arrival where clocks are equal. */
export class Register {
  clock = 0;
  stamp = [0, ""];
  value = null;

  constructor(name) {
    this.name = name;
  }

  write(value) {
    const message = { value, stamp: [this.clock + 1, this.name] };
    this.receive(message);
    return message;
  }

  receive({ value, stamp }) {
    this.clock = Math.max(this.clock, stamp[0]);
    if (stamp[0] >= this.stamp[0]) Object.assign(this, { value, stamp });
  }

  read() {
    return this.value;
  }
}

/** Finds the bug, and stores its steps in this file. Returns what a terminal shows, and the history. */
export async function runDemo(failure) {
  try {
    await checkRandom(Register, "register", { seeds: 200, failure });
  } catch (error) {
    if (!(error instanceof NotLinearizable)) throw error;
    const [shown] = error.message.split("\nthe same as a test:");
    return { text: `${INTRODUCTION}\n${shown.trimEnd()}\n`, history: readFileSync(error.history, "ascii") };
  }
  throw new Error("the bug was not found in 200 runs");
}
