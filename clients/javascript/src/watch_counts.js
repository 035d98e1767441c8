// What is known of a watched history: its counts, the lag of each replica, and the first violation.
import { MonitorExited } from "./errors.js";

// The lines in front of the first command, which have no replies.
export const HEADER_LINES = 2;

/** The commands that were sent and have no reply yet, in their order. */
export class Unanswered {
  #batches = [];
  #next = 0;

  /** Appends commands. */
  append(commands) {
    if (commands.length > 0) this.#batches.push(commands);
  }

  /** Removes this number of commands, or all if there are fewer, and returns them. */
  take(number) {
    const taken = [];
    while (taken.length < number && this.#batches.length > 0) {
      const end = this.#next + number - taken.length;
      for (const it of this.#batches[0].slice(this.#next, end)) taken.push(it);
      this.#next = end;
      if (this.#next >= this.#batches[0].length) {
        this.#batches.shift();
        this.#next = 0;
      }
    }
    return taken;
  }
}

/**
 * The counts of a history, from its commands and their replies. `reports` is the number of commands that have a reply.
 * After `violation`, the first `no`, nothing is judged, and only the reports are counted.
 *
 * An update reaches the replica that issues it. An accepted delivery brings one more update to a replica, and a join
 * brings those of its source. So a number for each replica is enough, and the size does not depend on the length.
 */
export class Counts {
  reports = 0;
  labels = 0;
  refused = 0;
  updates = 0;
  violation = null;
  #reached = new Map();
  #causes = new Set();

  /** Takes the initial replicas from the second line of the text. */
  begin(line) {
    this.#reached = new Map(line.split(" ").slice(1).map((name) => [name, 0]));
  }

  /** Returns for each replica the number of updates that have not reached it, the largest first. */
  lags() {
    const lags = [...this.#reached].map(([name, reached]) => [name, this.updates - reached]);
    return lags.sort((one, other) => other[1] - one[1]);
  }

  /** Counts commands and their replies. Returns the violation, and the first refusal for each cause. */
  add(commands, replies) {
    const notices = [];
    for (const [number, reply] of replies.entries()) {
      this.reports += 1;
      if (this.violation !== null || !this.#addOne(commands[number], reply)) continue;
      notices.push({ line: this.reports + HEADER_LINES, command: commands[number], reply });
      if (reply.startsWith("no ")) this.violation = notices.at(-1);
    }
    return notices;
  }

  /** Counts a command and its reply. Returns whether they are shown at once. */
  #addOne(command, reply) {
    const answer = reply.slice(0, reply.indexOf(" "));
    if (answer === "ok") this.#addOperation(command);
    else if (answer === "got") this.#reach(command);
    else if (answer === "joined") {
      const [, name, source] = command.split(" ");
      this.#reached.set(name, this.#reached.get(source));
    } else if (answer === "refused") return this.#addRefusal(reply);
    else if (answer !== "yes" && answer !== "no") {
      throw new MonitorExited(
        `the program is not a monitor: it replied '${reply.slice(0, 60)}'; set RA_MONITOR to the path of ra_monitor`,
      );
    }
    return answer === "no";
  }

  #addOperation(command) {
    this.labels += 1;
    if (command.startsWith(" read ", command.indexOf(" "))) return;
    this.updates += 1;
    this.#reach(command);
  }

  #reach(command) {
    const name = command.slice(0, command.indexOf(" "));
    this.#reached.set(name, this.#reached.get(name) + 1);
  }

  #addRefusal(reply) {
    this.refused += 1;
    const cause = reply.split(" ")[1];
    const isNew = !this.#causes.has(cause);
    this.#causes.add(cause);
    return isNew;
  }
}
