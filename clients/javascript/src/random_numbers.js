// The random numbers of a plan.

/** Random numbers for a seed, which may be any text (mulberry32: small, and good enough to choose steps). */
export class RandomNumbers {
  #state = 2_166_136_261;

  constructor(seed) {
    for (const letter of String(seed)) this.#state = Math.imul(this.#state ^ letter.codePointAt(0), 16_777_619);
  }

  /** Returns a number from 0 to 1, without 1. */
  chance() {
    this.#state = (this.#state + 0x6d2b79f5) | 0;
    let mixed = Math.imul(this.#state ^ (this.#state >>> 15), 1 | this.#state);
    mixed = (mixed + Math.imul(mixed ^ (mixed >>> 7), 61 | mixed)) ^ mixed;
    return ((mixed ^ (mixed >>> 14)) >>> 0) / 4_294_967_296;
  }

  /** Returns a number from the first to the last. */
  uniform(first, last) {
    return first + (last - first) * this.chance();
  }

  /** Returns a whole number from the first to the last. */
  number(first, last) {
    return first + Math.floor(this.chance() * (last - first + 1));
  }

  /** Returns one item of the list. */
  choice(list) {
    return list[this.number(0, list.length - 1)];
  }

  /** Returns one item of the list, each with the frequency of its weight. */
  weightedChoice(list, weights) {
    let left = this.chance() * weights.reduce((sum, it) => sum + it, 0);
    const chosen = weights.findIndex((it) => (left -= it) < 0);
    return list[chosen < 0 ? weights.findLastIndex((it) => it > 0) : chosen];
  }

  /** Returns this number of items of the list, in a random order. */
  sample(list, count) {
    const left = [...list];
    return Array.from({ length: count }, () => left.splice(this.number(0, left.length - 1), 1)[0]);
  }
}
