// The operations of the eight kinds, in the user's own names.
import { inspect } from "node:util";
import { NotRepresentable } from "./errors.js";

/** The operations of each kind. */
export const OPERATIONS = {
  counter: ["increment", "decrement"],
  register: ["write"],
  lwwset: ["add", "remove"],
  orset: ["add", "remove"],
  rga: ["insertAfter", "remove"],
  list: ["insert", "remove"],
  any: ["update"],
  mvregister: ["write"],
};
/** The kinds whose elements have an order. */
export const LISTS = ["rga", "list"];
/** The other names that the methods of a list with indexes may have. */
export const OTHER_NAMES = { insert: "insertAt", delete: "removeAt" };

/** Returns the names of the operations of this kind. */
export function operationsOf(kind) {
  if (Object.hasOwn(OPERATIONS, kind)) return OPERATIONS[kind];
  throw new NotRepresentable(`unknown kind ${inspect(kind)}: expected ${Object.keys(OPERATIONS).join(", ")}`);
}

/** Returns the methods of a replica of this kind that update it. Those of a list take an index. */
export const methodsOf = (kind) => (kind === "list" ? ["insert", "delete"] : operationsOf(kind));

/** Creates an update of an object of the kind `any`, whose effect is not reported. */
export const update = () => ({ word: "update" });

/** Creates a counter's increment by one. */
export const increment = () => ({ word: "increment" });

/** Creates a counter's decrement by one. */
export const decrement = () => ({ word: "decrement" });

/**
 * Creates a register's write of this value. The stamp is a clock, or a clock and its replica. The write of a register
 * that keeps concurrent writes, which is the kind `mvregister`, has no stamp.
 */
export const write = (value, stamp) => ({ word: "write", value, stamp });

/**
 * Creates a set's addition of this element, with the stamp of an LWW set or the identifier of an OR-Set. The recorder
 * chooses an identifier for an OR-Set whose type does not expose one.
 */
export const add = (element, { stamp, identifier } = {}) => ({
  word: "add",
  value: element,
  stamp,
  identifiers: identifier === undefined ? undefined : [identifier],
});

/**
 * Creates a removal of this element from a set or a list. An LWW set's removal has a stamp, and an OR-Set's the
 * identifiers that it removes. If its type does not expose them, the recorder uses those that its replica has observed
 * according to the reports. Then the monitor does not check which ones it removed.
 */
export const remove = (element, { stamp, identifiers } = {}) => ({
  word: "remove",
  value: element,
  stamp,
  identifiers: identifiers === undefined ? undefined : [...identifiers],
});

/** Creates a list's insertion of this element directly behind the anchor, or at the start if that is null. */
export const insertAfter = (anchor, element, stamp) => ({ word: "insertAfter", value: element, anchor, stamp });

/**
 * Creates a list's insertion of this element between two neighbours, which is for lists of any design. The neighbours
 * are the elements that the replica showed on both sides, or null where there was none.
 */
export const insert = (left, element, right) => ({ word: "insert", value: element, left, right });
