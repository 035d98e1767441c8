/** The summary of a whole run, as `check --report` prints it (docs/reference/json.md). */
export interface Report {
  /** The kind of the history. */
  kind: Kind;
  /** `yes` if the history has no violation, otherwise `no`. */
  verdict: "yes" | "no";
  /** The number of accepted operations. */
  labels: number;
  /** The number of commands. */
  calls: number;
  /** The number of rejected commands. */
  refused: number;
  /** The first violating label, if there is a violation. */
  label?: number;
  /** The condition that fails at this label. */
  cause?: Cause;
  /** True if no order at all explains the history up to the label, and not only the named order fails. */
  final?: boolean;
}

/** The kind of a history: the data type whose specification the monitor checks. */
export type Kind = "counter" | "register" | "lwwset" | "orset" | "rga" | "list" | "any" | "mvregister";
/**
 * The condition that fails at a violation: the order, an update that is not admitted, or a query whose answer is wrong.
 */
export type Cause = "order" | "update" | "query";
/** The clock of a stamp: a whole number. */
export type Clock = number | bigint;
/** A clock, or a clock and the replica that made it. */
export type Stamp = Clock | readonly [Clock, Key];
/** Anything that can be a key of a map. */
export type Key =
  | string
  | number
  | bigint
  | boolean
  | symbol
  | readonly unknown[]
  | { readonly [key: string]: unknown };
/** A value, or a function that returns it for the result of the act. */
export type Told<Value, Done = any> = Value | ((done: Done) => Value);
/** A seed of a random run: its number, or a text such as "2-17" with the version of the planner. */
export type Seed = number | string;

/** The program could not be started, or exited before its input ended. The message has its standard error. */
export class MonitorExited extends Error {}
/** The text format cannot represent a value. The message names the value and what to do instead. */
export class NotRepresentable extends Error {}
/** @deprecated Use MonitorExited. */
export { MonitorExited as MonitorGone };
/** @deprecated Use NotRepresentable. */
export { NotRepresentable as CannotTell };

/** A report that the program did not accept. */
export class ReportFailed extends Error {
  /** A description of what the replica did, in the user's names. */
  operation: string;
  /** The program's reply. */
  reply: string;
  /** The file with the history up to this report, which `ra_monitor check` reads. */
  history: string;
  /** The file with the steps of a random run, which `replay` runs again. */
  steps: string | undefined;
}

/** The program found a violation. */
export class NotLinearizable extends ReportFailed {
  /** The condition that fails. */
  get cause(): Cause;
}

/** The program rejected a report. The likely cause is that something was reported wrongly. */
export class Refused extends ReportFailed {
  /** The reason of the rejection, such as `not-causal 0`. */
  get cause(): string;
}

/**
 * A replica of a random run threw an error, its `read()` returned what the text format cannot represent, or a message
 * or a state changed after it was returned. The history ends before the call, and the message and the stored steps have
 * it.
 */
export class ReplicaRaised extends ReportFailed {
  /** The error that the replica threw, `NotRepresentable`, or undefined for a message or a state that changed. */
  cause: unknown;
}

/** A random run failed, and the same steps did not fail in the same way again: the class is not deterministic. */
export class FlakyRun extends ReportFailed {}

/** The options of a monitor. */
export interface MonitorOptions {
  /** The path of the program. The default is that of RA_MONITOR, else the repository's own `ra_monitor`. */
  program?: string;
  /** The largest number of commands without a reply. */
  window?: number;
}

/**
 * A run of the program on one history. `names` are the names of the initial replicas: a letter a to z, then up to 15
 * letters a to z or digits.
 */
export class Monitor {
  constructor(kind: Kind, names: readonly string[], options?: MonitorOptions);
  /** The path of the program. */
  readonly program: string;
  /** The first reply that differs from the expected one. */
  readonly unexpected: { command: number; reply: string } | null;
  /** Sends a command without waiting for its reply. Returns a promise to wait for if the window is full. */
  post(line: string, expected: string): Promise<void> | undefined;
  /** Sends a command, waits for its reply and returns it. */
  tell(line: string): Promise<string>;
  /** Returns the reply to `verdict`, which says whether the history so far is explained. */
  verdict(): Promise<string>;
  /** Waits until each command has its reply. */
  settle(): Promise<void>;
  /** Returns the text so far, or the header with this number of commands. */
  history(commands?: number): string;
  /** Ends the input, waits for the program and returns its report. Closing again returns the same report. */
  close(): Promise<Report>;
  /** Kills the program without waiting for replies. */
  stop(): Promise<void>;
}

/** An update, as `increment` and the other functions create it. */
export interface Operation {
  /** The name of the function that creates it. */
  readonly word: string;
  /** The element, or the value of a write. */
  readonly value?: unknown;
  /** The element behind which an insertion stands, or null at the start. */
  readonly anchor?: unknown;
  /** The element in front of a list's insertion, or null if there was none. */
  readonly left?: unknown;
  /** The element behind a list's insertion, or null if there was none. */
  readonly right?: unknown;
  /** The stamp of a write, of an LWW set's update or of an RGA's insertion. */
  readonly stamp?: Stamp;
  /** The identifiers that an OR-Set's update adds or removes. */
  readonly identifiers?: readonly Key[];
}

/** Creates an update of an object of the kind `any`, whose effect is not reported. */
export function update(): Operation;
/** Creates a counter's increment by one. */
export function increment(): Operation;
/** Creates a counter's decrement by one. */
export function decrement(): Operation;
/** Creates a register's write of this value. That of an `mvregister` has no stamp. */
export function write(value: unknown, stamp?: Stamp): Operation;
/**
 * Creates a set's addition of this element, with the stamp of an LWW set or the identifier of an OR-Set. The recorder
 * chooses an identifier for an OR-Set whose type does not expose one.
 */
export function add(element: Key, mark?: { stamp?: Stamp; identifier?: Key }): Operation;
/**
 * Creates a removal of this element from a set or a list. An LWW set's removal has a stamp, and an OR-Set's the
 * identifiers that it removes. If its type does not expose them, the recorder uses those that its replica has observed
 * according to the reports. Then the monitor does not check which ones it removed.
 */
export function remove(element: Key, mark?: { stamp?: Stamp; identifiers?: Iterable<Key> }): Operation;
/** Creates a list's insertion of this element directly behind the anchor, or at the start if that is null. */
export function insertAfter(anchor: Key | null, element: Key, stamp: Stamp): Operation;

/**
 * Creates a list's insertion of this element between two neighbours, which is for lists of any design. The neighbours
 * are the elements that the replica showed on both sides, or null where there was none.
 */
export function insert(left: Key | null, element: Key, right: Key | null): Operation;

/**
 * Creates a list's insertion of this element at an index of the list that the replica showed before it: `insert` with
 * the elements on both sides of the index, which counts from 0. An insertion at the end has the length of the list as
 * its index. Throws `RangeError` if the list has no such index.
 */
export function inserted(before: Iterable<Key>, index: number, element: Key): Operation;

/**
 * Creates the operations that lead from the list that a replica showed before a change to the one after it: a removal
 * of each element that is gone, and then an insertion of each new one, as one update of `Recorder.update`. The elements
 * of each list are distinct. Throws `NotRepresentable` if an element stands twice in a list, or if two elements changed
 * their order.
 */
export function difference(before: Iterable<Key>, after: Iterable<Key>): Operation[];

/** The options of a recorder. */
export interface RecorderOptions extends MonitorOptions {
  /** The file to which the history is written when a report fails. */
  history?: string;
  /** The result of a register's read before the first write. The default is null, and then undefined counts too. */
  nothing?: unknown;
  /** Whether the process ends with status 3 if the recorder is neither closed nor stopped. The default is true. */
  mustClose?: boolean;
}

/** The options of a step. */
export interface Act<Done> {
  /** What the replica does. It may be asynchronous; later steps wait for it. */
  act?: () => Done | Promise<Done>;
}

/** The options of an update. */
export interface Sent<Done> extends Act<Done> {
  /** The key that the update's deliveries name. */
  message?: Told<Key, Done>;
}

/** The options of a counter's update. */
export interface Counted<Done> extends Sent<Done> {
  /** An amount from 1 to 256, which is reported as that number of operations. The default is 1. */
  by?: number;
}

/** The updates that had been delivered to a replica at one moment, as a count for each replica. */
export interface Seen {
  /** The replica. */
  readonly replica: Key;
  /** The number of delivered updates of each replica. */
  readonly counts: readonly number[];
}

/**
 * A reporter for replicas with any names, given in the order in which the type breaks ties, lowest first. Each call is
 * one step: it runs the act and reports it before the act of another call runs, also if the act is asynchronous. The
 * first report that fails rejects with `NotLinearizable` or `Refused` as soon as its reply has arrived, and so does
 * each later call. With a `window` of 1 the call itself rejects.
 *
 * A recorder that is neither closed nor stopped warns, and lets the process end with status 3, since its last reports
 * were not checked. With `mustClose: false` it does neither.
 */
export class Recorder {
  constructor(kind: Kind, replicas: readonly Key[], options?: RecorderOptions);
  /**
   * Reports an update, and returns the result of the act. A list of operations is a composition: it is reported as
   * these operations in their order, with one message.
   */
  update<Done>(
    replica: Key,
    operation: Told<Operation | readonly Operation[], Done>,
    options?: Sent<Done>,
  ): Promise<Done>;
  /** Reports an update of an object of the kind `any`, whose effect is not reported. */
  update<Done>(replica: Key, options?: Sent<Done>): Promise<Done>;
  /** Reports that the replica applies the message of this key. A repeated delivery runs the act alone. */
  deliver<Done>(replica: Key, message: Told<Key, Done>, options?: Act<Done>): Promise<Done>;
  /** Reports that the replica merges a state, given by its messages or by what another replica had `seen`. */
  merge<Done>(replica: Key, messages: Told<Seen | Iterable<Key>, Done>, options?: Act<Done>): Promise<Done>;
  /**
   * Reports that a new replica joins with a copy of the source's state, which the act makes. It is the last replica in
   * the order of ties. A join that is impossible, because the name exists or there are 64 replicas, rejects with
   * `NotRepresentable` before the act, and the history continues without it.
   */
  join<Done>(replica: Key, source: Key, options?: Act<Done>): Promise<Done>;
  /**
   * Reports a read of this value, or of the value that this function returns. Returns the value. That of a set or a
   * list is an iterable of its elements, and that of an `mvregister` one of its values. Of the kind `any` it is a value
   * of any sort, which is equal to another one if `isDeepStrictEqual` of `node:util` says so.
   */
  read<Value>(replica: Key, value: Value | (() => Value | Promise<Value>)): Promise<Value>;
  /**
   * Reports a read of a part of a list: these elements are shown in this order, perhaps with others between. The
   * elements may be a function, which returns them. Returns the elements. It is for lists of the kind `list` that are
   * too long to be reported as a whole.
   */
  part<Value>(replica: Key, elements: Value | (() => Value | Promise<Value>)): Promise<Value>;
  /** Returns the updates that were delivered to the replica so far, for a `merge` of its current state. */
  seen(replica: Key): Seen;
  /** Reports a counter's increment by one, or by an amount from 1 to 256, as that number of increments. */
  increment<Done>(replica: Key, options?: Counted<Done>): Promise<Done>;
  /** Reports a counter's decrement by one, or by an amount from 1 to 256, as that number of decrements. */
  decrement<Done>(replica: Key, options?: Counted<Done>): Promise<Done>;
  /** Reports a register's write of this value. */
  write<Done>(replica: Key, value: unknown, stamp: Told<Stamp, Done>, options?: Sent<Done>): Promise<Done>;
  /** Reports a write of this value into an `mvregister`, which has no stamp. */
  write<Done>(replica: Key, value: unknown, options?: Sent<Done>): Promise<Done>;
  /** Reports a set's addition, with the `stamp` of an LWW set or the `identifier` of an OR-Set. */
  add<Done>(
    replica: Key,
    element: Key,
    options?: Sent<Done> & { stamp?: Told<Stamp, Done>; identifier?: Told<Key, Done> },
  ): Promise<Done>;
  /** Reports a removal, with the `stamp` of an LWW set or the `identifiers` of an OR-Set. */
  remove<Done>(
    replica: Key,
    element: Key,
    options?: Sent<Done> & { stamp?: Told<Stamp, Done>; identifiers?: Told<Iterable<Key>, Done> },
  ): Promise<Done>;
  /**
   * Reports that a set removes all that the replica shows by the reports, as a removal of each element. Those of an LWW
   * set need `stamps`: a mapping from elements to stamps, or the stamps in the order in which the elements were first
   * used.
   */
  clear<Done>(
    replica: Key,
    options?: Sent<Done> & {
      stamps?: Told<Iterable<Stamp> | ReadonlyMap<Key, Stamp> | { readonly [element: string]: Stamp }, Done>;
    },
  ): Promise<Done>;
  /** Reports a list's insertion directly behind the anchor, or at the start if that is null. */
  insertAfter<Done>(
    replica: Key,
    anchor: Key | null,
    element: Key,
    stamp: Told<Stamp, Done>,
    options?: Sent<Done>,
  ): Promise<Done>;
  /**
   * Reports an insertion into a list of the kind `list`, between two elements that the replica had: mostly those that
   * it showed on both sides. Null says that there was none, or that it is unknown.
   */
  insert<Done>(
    replica: Key,
    left: Key | null,
    element: Key,
    right: Key | null,
    options?: Sent<Done>,
  ): Promise<Done>;
  /** Waits for all replies. Rejects with the failure, if there is one. */
  settle(): Promise<void>;
  /** Ends the history and returns the report. Rejects with the failure, if there is one. */
  close(): Promise<Report>;
  /** Ends the history without waiting for replies. */
  stop(): Promise<void>;
  /** Returns the text so far, which `ra_monitor check` reads. */
  history(): string;
}

/** A class of replicas, or a function that creates the replica of a name. */
export type MakeReplica = (new (name: any) => object) | ((name: any) => object);

/** What the transport of a type may do, and other options of random runs. */
export interface RandomOptions {
  /**
   * `causal`, the default, if the transport delivers in causal order, or `any` if the type buffers the messages that
   * depend on a missing one.
   */
  delivery?: "causal" | "any";
  /** Whether a message may arrive again. The default is false. */
  duplicates?: boolean;
  /** Whether a state may be merged later than it was taken. By default, a type that merges promises it. */
  lateStates?: boolean;
  /** Whether a replica restarts from what it saved. By default, one with `save()` and `load(saved)` does. */
  restarts?: boolean;
  /** The relative frequency of each method, such as `{ remove: 3 }`. */
  weights?: { readonly [method: string]: number };
  /** The path of the program. The default is that of RA_MONITOR, else the repository's own `ra_monitor`. */
  program?: string;
  /** The file for the steps of a failure, whose folder exists. By default it is a temporary one beside the history. */
  failure?: string;
}

/** The settings of random runs, with their options. */
export interface RandomSettings extends RandomOptions {
  /**
   * The names of the replicas in the order in which the type breaks ties, lowest first, or their number. The default is
   * 3.
   */
  replicas?: number | readonly Key[];
  /** The number of operations of a run. The default is 30. */
  operations?: number;
  /** The seeds, or their number, counted from 0. The default is 100. */
  seeds?: number | Iterable<Seed>;
}

/** The runs that passed. */
export class Runs {
  /** The number of runs. */
  readonly runs: number;
  /** The operations of the kind that the class does not have, so that they were not tried. */
  readonly unused: readonly string[];
  /** Returns the number of runs. */
  valueOf(): number;
}

/**
 * Tests replicas in random runs, one for each seed, and returns the runs that passed.
 *
 * A replica has the methods of its kind (`increment` and `decrement`, `write(value)`, `add(element)` and
 * `remove(element)`, `insertAfter(anchor, element)` and `remove(element)` for the kind `rga`, `insert(index, element)`
 * and `delete(index)` for the kind `list`, or `update(number)` for the kind `any`), `read()`, and `receive(message)`.
 * They may be asynchronous. A type that only grows has no `decrement`, `remove` or `delete`.
 *
 * An update returns the message that the other replicas receive. The message has the `stamp` of a write, of an LWW
 * set's update or of an insertion, and the `identifier` or `identifiers` of an OR-Set's update if the type exposes
 * them. A type whose states are merged has `state()` and `merge(state)` instead of `receive`. If a replica has
 * `fork(name)`, which returns a copy of it under this name, some replicas join during the run. If the first parameter
 * of each update of a counter is named `by`, it is an amount, and amounts up to 256 are tried. No argument is passed
 * for a parameter of another name, which needs a default: otherwise the call rejects with `TypeError`.
 *
 * The replicas receive the message or the state itself, so it must not change after it was returned. If its JSON shows
 * that it did, the run fails. A state that is merged later than it was taken is copied when it is taken, as a network
 * would do it, and so is what `save()` returns.
 *
 * Rejects with `NotLinearizable` if a run has a violation, and with `Refused` if the program rejected a report. Rejects
 * with `ReplicaRaised` if a replica threw an error, its `read()` returned what cannot be reported, or a message or a
 * state changed after it was returned. Rejects with `FlakyRun` if the same steps did not fail in the same way again.
 * The failed run is shrunk first. The message has the seed, the small history, the faults of the network that are at
 * work in it, and a test of its own. `history` is the file with the history, and `steps` the one for `replay`.
 */
export function checkRandom(makeReplica: MakeReplica, kind: Kind, settings?: RandomSettings): Promise<Runs>;
/** Tests replicas in random runs, with the numbers of replicas, operations and seeds as parameters of their own. */
export function checkRandom(
  makeReplica: MakeReplica,
  kind: Kind,
  replicas?: number | readonly Key[],
  operations?: number,
  seeds?: number | Iterable<Seed>,
  options?: RandomOptions,
): Promise<Runs>;

/**
 * Runs the steps of a stored failure again, and returns their number if they pass. Steps that the class cannot execute
 * any more are left out. Rejects with the error of `checkRandom` if the run still fails, and with `RangeError` if the
 * file is no stored failure. Both clients write and read the same files.
 */
export function replay(makeReplica: MakeReplica, path: string, options?: { program?: string }): Promise<number>;
