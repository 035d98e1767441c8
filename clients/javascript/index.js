// A client of the monitor of RA-linearizability, which reports what the replicas of a CRDT do.
//
// `Monitor` runs the program behind a pipe. `Recorder` reports to it in the user's own names. `checkRandom` tests a
// replicated data type in random runs, and shrinks the first run that has a violation.
export { difference, inserted } from "./src/differences.js";
export { MonitorExited, NotLinearizable, NotRepresentable } from "./src/errors.js";
export { FlakyRun, Refused, ReplicaRaised, ReportFailed } from "./src/errors.js";
// The names that two of them had in the previous version. The next version removes them.
export { MonitorExited as MonitorGone, NotRepresentable as CannotTell } from "./src/errors.js";
export { Monitor } from "./src/monitor.js";
export { add, decrement, increment, insert, insertAfter, remove, update, write } from "./src/operations.js";
export { Recorder } from "./src/recorder.js";
export { Runs, checkRandom, replay } from "./src/random_runs.js";
