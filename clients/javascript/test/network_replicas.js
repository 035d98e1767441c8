// Correct replicas for networks that lose the order, repeat messages, and restart; and a seeded bug of each.
import { CORRECT, Counter, LwwSet, Register, forking } from "./replicas.js";

const UPDATES = ["increment", "decrement", "write", "add", "remove", "insertAfter"];

/** Returns a subclass with a causal buffer: a message waits for all that its sender had received or sent before. */
export function buffered(Base) {
  class Buffered extends Base {
    seen = {};
    buffer = [];

    constructor(name) {
      super(name);
      this.name = name;
    }

    send(message) {
      const needs = { ...this.seen };
      this.seen[this.name] = (needs[this.name] ?? 0) + 1;
      return { ...message, from: this.name, number: this.seen[this.name], needs };
    }

    receive(message) {
      if (!hasSeen(this.seen, message) && !this.buffer.includes(message)) this.keep(message);
      this.flush();
    }

    keep(message) {
      this.buffer.push(message);
    }

    flush() {
      const ready = this.buffer.filter((it) => isReady(this.seen, it));
      for (const message of ready) {
        this.buffer = this.buffer.filter((it) => it !== message);
        if (hasSeen(this.seen, message)) continue;
        this.seen[message.from] = message.number;
        super.receive(message);
      }
      if (ready.length > 0) this.flush();
    }
  }
  return sending(Buffered, Base);
}

const hasSeen = (seen, { from, number }) => number <= (seen[from] ?? 0);
const isReady = (seen, { needs }) => Object.entries(needs).every(([name, number]) => (seen[name] ?? 0) >= number);

/** Lets each update return its message with what it needs. */
function sending(Buffered, Base) {
  for (const method of UPDATES.filter((it) => it in Base.prototype)) {
    Buffered.prototype[method] = function update(...parameters) {
      return this.send(Base.prototype[method].apply(this, parameters));
    };
  }
  return Buffered;
}

/** Returns a subclass that saves all that it has. */
export function saving(Base) {
  return class Saving extends Base {
    save() {
      return { ...this };
    }

    load(saved) {
      Object.assign(this, saved);
    }
  };
}

/** A counter with merged states: for each replica its increments and decrements. */
export class MergedCounter {
  constructor(name) {
    this.name = name;
    this.steps = { [name]: [0, 0] };
  }

  increment() {
    const [up, down] = this.steps[this.name];
    this.steps[this.name] = [up + 1, down];
  }

  decrement() {
    const [up, down] = this.steps[this.name];
    this.steps[this.name] = [up, down + 1];
  }

  state() {
    return [this.name, { ...this.steps }];
  }

  merge([, steps]) {
    for (const [name, [up, down]] of Object.entries(steps)) {
      const own = this.steps[name] ?? [0, 0];
      this.steps[name] = [Math.max(own[0], up), Math.max(own[1], down)];
    }
  }

  read() {
    return Object.values(this.steps).reduce((sum, [up, down]) => sum + up - down, 0);
  }
}

/** An LWW set with merged states. */
export class MergedLwwSet extends LwwSet {
  receive = undefined;

  state() {
    return new Map(this.last);
  }

  merge(state) {
    for (const message of state.values()) {
      this.raiseClock(message.stamp);
      this.apply(message);
    }
  }
}

/** A counter whose methods take an amount. */
export class AmountCounter extends Counter {
  increment(by = 1) {
    return this.step(by);
  }

  decrement(by = 1) {
    return this.step(-by);
  }
}

/** A causal buffer that keeps one message, the last one. */
export class KeepsOneMessage extends buffered(Counter) {
  keep(message) {
    this.buffer = [message];
  }
}

/** A counter that is not idempotent. */
export const CountsDuplicates = Counter;

/** A late state that undoes newer entries: the sender's own entry is taken as the newest one. */
export class UndoesNewerEntries extends MergedCounter {
  merge(state) {
    super.merge(state);
    const [sender, steps] = state;
    this.steps[sender] = steps[sender];
  }
}

/** A restart that begins with the clock 0. */
export class ForgetsItsClock extends saving(Register) {
  load({ value, stamp }) {
    Object.assign(this, { value, stamp });
  }
}

/** Returns a counter in a signed byte. */
export const overflowing = (Base) =>
  class OverflowsAtSevenBits extends Base {
    read() {
      return (super.read() << 24) >> 24;
    }
  };

export const OverflowsAtSevenBits = overflowing(Counter);

const ANY = { delivery: "any", duplicates: true };
const entries = (change) => Object.entries(CORRECT).map(([kind, Replica]) => change(kind, Replica));

/** The seeded bugs: each with its kind and what its type promises. */
export const PLANTED = {
  keeps_one_message: { Replica: KeepsOneMessage, kind: "counter", options: { delivery: "any" } },
  counts_duplicates: { Replica: CountsDuplicates, kind: "counter", options: { duplicates: true } },
  undoes_newer_entries: { Replica: UndoesNewerEntries, kind: "counter", options: { lateStates: true } },
  forgets_its_clock: { Replica: ForgetsItsClock, kind: "register", options: { restarts: true } },
  overflows_at_seven_bits: { Replica: OverflowsAtSevenBits, kind: "counter", options: {} },
  "overflows_at_seven_bits with amounts": { Replica: overflowing(AmountCounter), kind: "counter", options: {} },
};

/** Correct replicas: each with its kind and what its type promises. */
export const RIGHT = {
  ...Object.fromEntries(entries((kind, Replica) => [
    `${kind} in any order`, { Replica: saving(buffered(Replica)), kind, options: ANY },
  ])),
  ...Object.fromEntries(entries((kind, Replica) => [`${kind} with restarts`, { Replica: saving(Replica), kind }])),
  "register with duplicates": { Replica: Register, kind: "register", options: { duplicates: true } },
  "merged counter": { Replica: saving(MergedCounter), kind: "counter" },
  "merged lwwset": { Replica: saving(MergedLwwSet), kind: "lwwset" },
  "counter with amounts": { Replica: AmountCounter, kind: "counter" },
  "lwwset in any order with joins": { Replica: forking(saving(buffered(LwwSet))), kind: "lwwset", options: ANY },
};
