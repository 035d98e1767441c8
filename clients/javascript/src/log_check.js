// Checks logs: each object's events, merged by their messages, make one history.
import { inspect } from "node:util";
import { Verdict, judge } from "./log_history.js";
import { CannotJudge, LogFault, missingField, readEvents, shown } from "./log_lines.js";
import { merge } from "./log_merge.js";
import { findForManyRuns } from "./program.js";

/**
 * Yields the verdict on each object in these files, in the order of the objects' first lines. `kind` is that of the
 * objects whose lines state none, `replicas` names all replicas in the order in which the type breaks ties, lowest
 * first, and `only` is the name of the one object to check. Throws `LogFault` if a line is malformed, and `CannotJudge`
 * if the log is of another sort.
 */
export function* checkLogs(paths, { kind, replicas, only, program } = {}) {
  const events = readEvents(paths);
  const order = orderOf(events, replicas);
  const objects = groupedByObject(events);
  const chosen = [...objects].filter(([name]) => only === undefined || String(name) === only);
  if (chosen.length === 0) {
    const problem = "there are no events: expected JSON lines";
    throw new LogFault(paths.join(", "), only === undefined ? problem : `there is no object ${shown(only)}`);
  }
  const found = findForManyRuns(program);
  for (const [name, those] of chosen) {
    const kindOfThose = kindOf(those, kind);
    const present = new Set(those.map((it) => it.replica));
    yield judge(name, kindOfThose, order.filter((it) => present.has(it)), merge(those), found);
  }
}

function groupedByObject(events) {
  const objects = new Map();
  for (const it of events) {
    if (!objects.has(it.object)) objects.set(it.object, []);
    objects.get(it.object).push(it);
  }
  return objects;
}

/** Returns the replicas in the order in which the type breaks ties. */
function orderOf(events, replicas) {
  const present = [...new Set(events.map((it) => it.replica))];
  if (replicas === undefined) return present.sort(compareNames);
  const unnamed = events.find((it) => !replicas.includes(String(it.replica)));
  if (unnamed !== undefined) {
    throw new LogFault(unnamed.place,
      `the field "replica" is ${shown(unnamed.replica)}, which --replicas does not name: expected one of ` +
        `${replicas.join(", ")}; name all replicas, lowest first`);
  }
  const named = new Map(present.map((it) => [String(it), it]));
  const unused = replicas.find((it) => !named.has(it));
  if (unused !== undefined) {
    const problem = "of which there is no line: expected the log's replicas";
    throw new CannotJudge(`--replicas names ${shown(unused)}, ${problem}`);
  }
  return replicas.map((it) => named.get(it));
}

/** Numbers come first, then strings by their bytes in UTF-8. */
function compareNames(one, other) {
  if (typeof one !== typeof other) return typeof one === "number" ? -1 : 1;
  return typeof one === "number" ? one - other : Buffer.compare(Buffer.from(one), Buffer.from(other));
}

/** Returns the kind of an object, which at least one of its lines states, or the default. */
function kindOf(events, fallback) {
  const first = events.find((it) => it.kind !== undefined);
  if (first === undefined) {
    if (fallback !== undefined) return fallback;
    throw missingField(events[0].place, "kind", ", in one line of the object or as --kind");
  }
  const other = events.find((it) => it.kind !== undefined && it.kind !== first.kind);
  if (other === undefined) return first.kind;
  throw new LogFault(other.place,
    `the field "kind" is ${shown(other.kind)}, and ${first.place} has ${shown(first.kind)}: expected one kind for ` +
      "each object");
}

/** Returns what a terminal shows of a verdict. */
export function describe({ name, kind, verdict, details, context }, withContext) {
  const head = `${name === undefined ? "" : `object ${inspect(name)}, `}${kind}: ${verdict}`;
  if (verdict === Verdict.PASS || verdict === Verdict.UNJUDGED) return `${head}: ${details}`;
  const lines = withContext ? ["the last lines, in a causal order:", ...context.map((it) => `  ${it}`)] : [];
  return [head, ...details.split("\n"), ...lines].join("\n  ");
}
