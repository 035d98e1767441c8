// Copies of what replicas hand out, as a file or a network would make them.
import { NotRepresentable } from "./errors.js";

const PRIVATE_FIELD = /#[A-Za-z_$]/;

/**
 * Returns a deep copy. Instances of classes keep their prototypes. `what` and `option` are for the error: what is
 * copied, and the option without which it is not. `onInstance` is called if there is an instance of a class.
 */
export function copied(value, what, option, onInstance = () => {}) {
  try {
    return copyOf(value, new Map(), onInstance);
  } catch (error) {
    throw new NotRepresentable(
      `${what} cannot be copied (${error.message}): expected plain data, as a file or a message holds it; ` +
        `or pass ${option}`,
      { cause: error },
    );
  }
}

function copyOf(value, known, onInstance) {
  if (typeof value !== "object" || value === null) {
    if (typeof value === "symbol") return structuredClone(value);
    if (typeof value === "function") throw new TypeError(`a function: ${value.name || "without a name"}`);
    return value;
  }
  if (known.has(value)) return known.get(value);
  const copy = emptyCopy(value, onInstance);
  known.set(value, copy);
  if (value instanceof Map) {
    for (const [key, it] of value) copy.set(copyOf(key, known, onInstance), copyOf(it, known, onInstance));
  }
  if (value instanceof Set) for (const it of value) copy.add(copyOf(it, known, onInstance));
  if (!isAtomic(value)) for (const key of Object.keys(value)) copy[key] = copyOf(value[key], known, onInstance);
  return copy;
}

/** Returns a copy without what it holds, or, of an atomic object, the whole copy. */
function emptyCopy(value, onInstance) {
  if (isAtomic(value)) return structuredClone(value);
  if (Array.isArray(value)) return Array(value.length);
  const prototype = Object.getPrototypeOf(value);
  if (prototype === Map.prototype) return new Map();
  if (prototype === Set.prototype) return new Set();
  if (prototype === null || Object.getPrototypeOf(prototype) === null) return Object.create(prototype);
  const Class = prototype.constructor;
  if (value instanceof Map || value instanceof Set || PRIVATE_FIELD.test(String(Class))) {
    throw new TypeError(`an instance of ${Class.name}, which may have private fields`);
  }
  onInstance();
  return Object.create(prototype);
}

function isAtomic(value) {
  if (ArrayBuffer.isView(value) || value instanceof ArrayBuffer || value instanceof Date) return true;
  const isForeign = [RegExp, Error, Promise, WeakMap, WeakSet, WeakRef].some((it) => value instanceof it);
  return isForeign;
}
