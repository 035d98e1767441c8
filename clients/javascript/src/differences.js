// The operations of a list that lie between what a replica showed before and after a change.
import { inspect } from "node:util";
import { NotRepresentable } from "./errors.js";
import { KeyMap } from "./numbers.js";
import { insert, remove } from "./operations.js";

/**
 * Creates a list's insertion of this element at an index of the list that the replica showed before it: `insert` with
 * the elements on both sides of the index, which counts from 0. An insertion at the end has the length of the list as
 * its index. Throws `RangeError` if the list has no such index.
 */
export function inserted(before, index, element) {
  const shown = [...before];
  if (!Number.isInteger(index) || index < 0 || index > shown.length) {
    throw new RangeError(
      `the index ${inspect(index)} of an insertion into ${shown.length} elements: expected 0 to ${shown.length}`,
    );
  }
  return insert(shown[index - 1] ?? null, element, shown[index] ?? null);
}

/**
 * Creates the operations that lead from the list that a replica showed before a change to the one after it: a removal
 * of each element that is gone, and then an insertion of each new one, as one update of `Recorder.update`. The elements
 * of each list are distinct. Throws `NotRepresentable` if an element stands twice in a list, or if two elements changed
 * their order.
 */
export function difference(before, after) {
  const [shown, elements] = [[...before], [...after]];
  const old = positionsOf("before", shown);
  const fresh = positionsOf("after", elements);
  const kept = elements.filter((it) => old.get(it) !== undefined);
  kept.slice(1).forEach((right, at) => requireOrder(old, kept[at], right));
  const found = shown.filter((it) => fresh.get(it) === undefined).map((it) => remove(it));
  let passed = 0;
  elements.forEach((it, at) => {
    if (old.get(it) === undefined) found.push(insert(elements[at - 1] ?? null, it, kept[passed] ?? null));
    else passed += 1;
  });
  return found;
}

function requireOrder(old, left, right) {
  if (old.get(left) < old.get(right)) return;
  throw new NotRepresentable(
    `${inspect(left)} and ${inspect(right)} changed their order: report a moved element as a removal, and as an ` +
      "insertion of a new element",
  );
}

/** Returns the elements, each with its position. They have to be distinct. */
function positionsOf(name, elements) {
  const found = new KeyMap();
  for (const it of elements) {
    if (found.get(it) !== undefined) {
      throw new NotRepresentable(
        `${inspect(it)} stands twice in the list ${name} the change: expected distinct elements, such as each ` +
          "character with a number of its own",
      );
    }
    found.set(it, found.size);
  }
  return found;
}
