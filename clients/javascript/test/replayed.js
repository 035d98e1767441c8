// Replicas with bugs, whose failures are run again.
import { Counter, Register } from "./replicas.js";

/** A register in which the last write to arrive wins. */
export class Unrepaired extends Register {
  apply({ value, stamp }) {
    Object.assign(this, { value, stamp });
  }
}

/** Throws an error at the third increment. */
export class Stuttering extends Counter {
  increment() {
    if (this.number === 2) throw new RangeError("three");
    return super.increment();
  }
}

/** Reads a wrong number a few times. */
export class Flaky extends Counter {
  static left = 1;

  read() {
    if (this.number === 0 || Flaky.left === 0) return this.number;
    Flaky.left -= 1;
    return this.number + 1;
  }
}

/** A register whose methods are asynchronous, in which the last write to arrive wins. */
export class Asynchronous extends Unrepaired {
  async write(value) {
    return super.write(value);
  }

  async read() {
    return super.read();
  }
}
