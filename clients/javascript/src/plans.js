// Random plans of what replicas do and what the network does, determined by a seed.
import { inspect } from "node:util";
import { DeliveryState, REMOVING } from "./delivery_state.js";
import { Network } from "./network.js";
import { LISTS } from "./operations.js";
import { RandomNumbers } from "./random_numbers.js";
import { makeStep } from "./steps.js";

// The version of the planner. A seed means the same plan as long as this stays.
const VERSION = 2;
const SEED = /^(\d+)-(-?\d+)$/;
// A set has few elements, so that updates of one element are concurrent.
const SET_ELEMENTS = 3;
// The largest argument of an update of any type, from 1 up: it may derive what it does from the number.
const LARGEST_ARGUMENT = 1000;
// The chance that a register with concurrent writes writes one of a few values, so that two of them may be equal.
const EQUAL_WRITE_CHANCE = 0.2;
// The values around the bounds of the usual sizes of numbers. All are exact.
export const BOUNDARIES = [
  0, 1, 127, 128, 255, 256, 65_535, 65_536, 2 ** 31 - 1, 2 ** 31, 2 ** 32 - 1, 2 ** 32, 2 ** 53 - 1,
];
// The chance that a value is one of these.
const BOUNDARY_CHANCE = 0.15;
// The amounts of a counter with `increment(by)`, and the largest sum of all amounts of a run.
export const AMOUNTS = [1, 1, 1, 2, 2, 127, 128, 255, 256];
export const MAX_TOTAL = 300;
// The chance of a run in which one replica counts beyond seven bits, and the number of its increments.
const CLIMB_CHANCE = 0.06;
const SHORTEST_CLIMB = 200;
const LONGEST_CLIMB = 260;
// The chances, at each step, of events of the profile.
const OLD_STATE_CHANCE = 0.1;
const JOIN_CHANCE = 0.15;
const BURST_CHANCE = 0.05;
const DUPLICATE_CHANCE = 0.15;
const SNAPSHOT_CHANCE = 0.1;
const LATE_CHANCE = 0.12;
const SAVE_CHANCE = 0.05;
const RESTART_CHANCE = 0.06;
const LONGEST_BURST = 8;

/** Returns the number of a seed, such as 17 or "2-17". Throws `RangeError` if it is of another version. */
export function parseSeed(seed) {
  if (Number.isSafeInteger(seed)) return seed;
  const [, version, number] = (typeof seed === "string" && SEED.exec(seed)) || [];
  if (version === undefined) {
    throw new RangeError(
      `the seed ${inspect(seed)} is unknown: expected a whole number, or a text such as '${VERSION}-17'`,
    );
  }
  if (Number(version) !== VERSION) {
    throw new RangeError(
      `the seed ${inspect(seed)} is of version ${version} of the planner, and this is version ${VERSION}, which ` +
        "plans another run for it: run the stored failure again with replay(makeReplica, PATH)",
    );
  }
  return Number(number);
}

/** Returns the seed with the version of the planner. */
export const formatSeed = (seed) => `${VERSION}-${seed}`;

/** The maker of one plan. If replicas fork, some of them are initial and some of the others join. */
export class Planner {
  #kind;
  #operations;
  #remaining;
  #traits;
  #random;
  #replicas;
  #present;
  #network;
  #state;
  #steps = [];
  #updates = 0;
  #total = 0;
  // The states that were taken early: for each its replica, and the counts of the updates in it.
  #states = [];
  #reordering;
  #weights;
  #boundaries;
  #elements;
  #used = new Set();
  #smallest = 1;

  constructor(kind, replicas, operations, seed, traits) {
    this.#kind = kind;
    this.#operations = operations;
    this.#remaining = operations;
    this.#traits = traits;
    this.#replicas = replicas;
    const random = new RandomNumbers(`${VERSION} ${kind} ${replicas} ${operations} ${seed}`);
    this.#random = random;
    const initial = traits.forks ? random.number(1, replicas) : replicas;
    this.#present = Array.from({ length: initial }, (_, replica) => replica);
    this.#network = new Network(random, replicas, operations);
    this.#state = new DeliveryState(kind, replicas);
    this.#reordering = traits.profile.delivery === "any" ? random.uniform(0.2, 0.9) : 0;
    this.#weights = traits.methods.map((it) => traits.weights[it]);
    this.#boundaries = random.sample(BOUNDARIES, BOUNDARIES.length);
    this.#elements = this.#chooseElements();
  }

  /** Returns operations, deliveries and reads. Most plans end with all pending deliveries; all end with reads. */
  plan() {
    const reads = this.#random.uniform(0.1, 0.3);
    const deliveries = this.#random.uniform(0.3, 0.6);
    if (this.#kind === "counter" && this.#operations >= 10 && this.#random.chance() < CLIMB_CHANCE) this.#climb();
    while (this.#remaining > 0) {
      const chance = this.#random.chance();
      if (chance < reads) this.#add("read", this.#random.choice(this.#present));
      else if (chance >= reads + deliveries || !this.#deliver()) this.#update(this.#random.choice(this.#present));
      this.#network.advance(this.#steps.length, this.#present);
      this.#planEvents();
    }
    if (this.#random.chance() < 0.8) {
      this.#network.recover();
      while (this.#deliver());
    }
    for (const it of this.#present) this.#add("read", it);
    return this.#steps;
  }

  #add(...fields) {
    this.#steps.push(makeStep(...fields));
  }

  /** Adds what the profile allows beside operations, deliveries and reads. */
  #planEvents() {
    const { profile, merges } = this.#traits;
    const occurs = (chance) => this.#random.chance() < chance;
    if (this.#present.length < this.#replicas && occurs(JOIN_CHANCE)) this.#join();
    if (occurs(BURST_CHANCE)) this.#burst();
    if (merges && occurs(OLD_STATE_CHANCE)) this.#mergeOldState();
    if (profile.duplicates && occurs(DUPLICATE_CHANCE)) this.#duplicate();
    if (profile.lateStates) this.#useLateStates();
    if (profile.restarts) this.#restart();
  }

  // Deliveries.

  /** Adds a delivery between two connected replicas. Returns false if there is none. */
  #deliver() {
    if (this.#traits.merges) return this.#deliverState();
    const canReorder = this.#reordering > 0;
    let ready = this.#arriving(canReorder && this.#random.chance() < this.#reordering);
    if (ready.length === 0 && canReorder) ready = this.#arriving(true);
    if (ready.length === 0) return false;
    const [replica, update] = this.#random.choice(ready);
    if (canReorder) this.#state.arrive(replica, update);
    else this.#state.deliver(replica, update);
    this.#add("deliver", replica, update);
    return true;
  }

  /** Returns the messages that can arrive, each with its receiver: in causal order or in any. */
  #arriving(isInAnyOrder) {
    return this.#present.flatMap((replica) =>
      this.#present.flatMap((sender) => this.#arrivingFrom(sender, replica, isInAnyOrder)),
    );
  }

  #arrivingFrom(sender, replica, isInAnyOrder) {
    const { issued, delivered, waiting } = this.#state;
    const first = delivered[replica][sender];
    if (sender === replica || first === issued[sender].length) return [];
    if (!this.#network.areConnected(replica, sender)) return [];
    const found = [];
    for (const { number } of issued[sender].slice(first, isInAnyOrder ? undefined : first + 1)) {
      if (!this.#network.isDue(number, replica, this.#steps.length) || waiting[replica].includes(number)) continue;
      if (isInAnyOrder || this.#state.canDeliver(replica, number)) found.push([replica, number]);
    }
    return found;
  }

  #deliverState() {
    const ready = this.#pairs((replica, sender) =>
      this.#state.isBehind(replica, sender) && this.#network.areConnected(replica, sender),
    );
    if (ready.length === 0) return false;
    const [replica, sender] = this.#random.choice(ready);
    this.#state.merge(replica, this.#state.counts(sender));
    this.#add("merge", replica, sender);
    return true;
  }

  /** Returns the pairs of two replicas that are present for which this holds. */
  #pairs(holds) {
    return this.#present.flatMap((replica) =>
      this.#present.filter((it) => it !== replica && holds(replica, it)).map((sender) => [replica, sender]),
    );
  }

  #mergeOldState() {
    const old = this.#pairs((replica, sender) => !this.#state.isBehind(replica, sender));
    if (old.length > 0) this.#add("merge", ...this.#random.choice(old));
  }

  // Events of the profile.

  #join() {
    const source = this.#random.choice(this.#present);
    const joining = this.#present.push(this.#present.length) - 1;
    this.#state.join(joining, source);
    this.#add("join", joining, source);
  }

  #burst() {
    for (let left = this.#random.number(2, LONGEST_BURST); left > 0 && this.#deliver(); left -= 1);
  }

  #duplicate() {
    const replica = this.#random.choice(this.#present);
    const repeatable = this.#state.repeatable(replica);
    if (repeatable.length > 0) this.#add("duplicate", replica, this.#random.choice(repeatable));
  }

  /** Takes a state for later, or merges one of those that were taken. */
  #useLateStates() {
    if (this.#random.chance() < SNAPSHOT_CHANCE) {
      const sender = this.#random.choice(this.#present);
      this.#states.push({ sender, counts: this.#state.counts(sender) });
      this.#add("snapshot", sender, this.#states.length);
    }
    if (this.#states.length === 0 || this.#random.chance() >= LATE_CHANCE) return;
    const number = this.#random.number(1, this.#states.length);
    const replica = this.#random.choice(this.#present);
    const { sender, counts } = this.#states[number - 1];
    if (replica === sender) return;
    this.#state.merge(replica, counts);
    this.#add("merge_snapshot", replica, number);
  }

  /** Saves the state of a replica, or restarts one. */
  #restart() {
    const chance = this.#random.chance();
    if (chance < SAVE_CHANCE) this.#add("save", this.#random.choice(this.#present));
    else if (chance < SAVE_CHANCE + RESTART_CHANCE) this.#add("restart", this.#random.choice(this.#present));
  }

  // Operations.

  /** Lets one replica count in one direction, so that the value needs more than seven bits. */
  #climb() {
    const replica = this.#random.choice(this.#present);
    const method = this.#chooseMethod();
    for (let left = this.#random.number(SHORTEST_CLIMB, LONGEST_CLIMB); left > 0; left -= 1) {
      this.#issue(replica, method, this.#traits.amounts ? [1] : []);
      this.#total += 1;
    }
    this.#add("read", replica);
  }

  #update(replica) {
    this.#remaining -= 1;
    this.#issue(replica, ...this.#chooseOperation(replica));
  }

  #issue(replica, method, parameters) {
    this.#updates += 1;
    const step = makeStep("update", replica, this.#updates, method, parameters);
    this.#state.update(step);
    this.#network.send(this.#updates, this.#steps.length);
    this.#steps.push(step);
  }

  #chooseMethod() {
    return this.#random.weightedChoice(this.#traits.methods, this.#weights);
  }

  #chooseOperation(replica) {
    const method = this.#chooseMethod();
    if (this.#kind === "counter") return [method, this.#traits.amounts ? [this.#chooseAmount()] : []];
    if (this.#kind === "any") return [method, [this.#random.number(1, LARGEST_ARGUMENT)]];
    if (this.#kind === "mvregister" && this.#random.chance() < EQUAL_WRITE_CHANCE) {
      return [method, [this.#random.choice(this.#elements)]];
    }
    if (this.#kind === "register" || this.#kind === "mvregister") return [method, [this.#newValue()]];
    if (!LISTS.includes(this.#kind)) return [method, [this.#random.choice(this.#elements)]];
    const visible = this.#state.visible[replica];
    if (REMOVING.includes(method) && visible.length > 0) return [method, [this.#random.choice(visible)]];
    return [this.#traits.methods[0], [this.#random.choice([null, ...visible]), this.#newValue()]];
  }

  #chooseAmount() {
    const amount = this.#random.choice(AMOUNTS.filter((it) => it === 1 || this.#total + it <= MAX_TOTAL));
    this.#total += amount;
    return amount;
  }

  /** Returns a value that the plan did not use before: a small one, or one of the boundaries. */
  #newValue() {
    const isBoundary = this.#boundaries.length > 0 && this.#random.chance() < BOUNDARY_CHANCE;
    let value = isBoundary ? this.#boundaries.at(-1) : this.#smallest;
    while (this.#used.has(value)) {
      this.#smallest += 1;
      value = this.#smallest;
    }
    this.#used.add(value);
    this.#boundaries = this.#boundaries.filter((it) => it !== value);
    return value;
  }

  #chooseElements() {
    if (this.#random.chance() < BOUNDARY_CHANCE) return this.#random.sample(BOUNDARIES, SET_ELEMENTS);
    return Array.from({ length: SET_ELEMENTS }, (_, number) => number + 1);
  }
}
