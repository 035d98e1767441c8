// The network of one plan: delays and partitions.

// The longest delays of a message, in steps, from which each plan chooses one.
const LONGEST_DELAYS = [0, 0, 0, 6, 20];
const PARTITION_CHANCES = [0.02, 0.03, 0.06];
const SHORTEST_PARTITION = 5;
const SHORT_PARTITION = 25;
// The chance that a partition is long, and the chance that it divides the replicas into two groups.
const LONG_CHANCE = 0.2;
const GROUPS_CHANCE = 0.3;

/** The delays and partitions that a plan draws from its random numbers. */
export class Network {
  /** The current partitions: for each its last step, and for each replica the side on which it is. */
  partitions = [];
  #random;
  #replicas;
  #longestDelay;
  #partitionChance;
  #longestPartition;
  // For each delayed message, the step from which on it may arrive at each replica.
  #due = new Map();

  constructor(random, replicas, operations) {
    this.#random = random;
    this.#replicas = replicas;
    this.#longestDelay = random.choice(LONGEST_DELAYS);
    this.#partitionChance = random.choice(PARTITION_CHANCES);
    this.#longestPartition = Math.max(SHORT_PARTITION, 2 * operations);
  }

  /** Ends the partitions that are over, and perhaps begins another one. */
  advance(now, present) {
    if (this.partitions.length > 0) this.partitions = this.partitions.filter((it) => it.end > now);
    if (this.#random.chance() >= this.#partitionChance) return;
    const isLong = this.#random.chance() < LONG_CHANCE;
    const length = this.#random.number(SHORTEST_PARTITION, isLong ? this.#longestPartition : SHORT_PARTITION);
    this.partitions.push({ end: now + length, sides: this.#sides(present) });
  }

  #sides(present) {
    const sides = Array(this.#replicas).fill(false);
    if (this.#random.chance() < GROUPS_CHANCE) return sides.map(() => this.#random.chance() < 0.5);
    sides[this.#random.choice(present)] = true;
    return sides;
  }

  /** Draws the delays of a new message. */
  send(message, now) {
    if (this.#longestDelay === 0) return;
    const draw = () => this.#random.number(now, now + this.#longestDelay);
    this.#due.set(message, Array.from({ length: this.#replicas }, draw));
  }

  /** Returns whether the message may arrive at the replica. */
  isDue(message, replica, now) {
    const due = this.#due.get(message);
    return due === undefined || due[replica] <= now;
  }

  /** Returns whether no partition is between the two replicas. */
  areConnected(one, other) {
    return this.partitions.every(({ sides }) => sides[one] === sides[other]);
  }

  /** Ends all partitions and delays. */
  recover() {
    this.partitions = [];
    this.#due.clear();
  }
}
