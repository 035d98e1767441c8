// A use of the whole client, which `tsc --strict` checks (types.test.js). It is run too.
import {
  FlakyRun, Kind, Monitor, Operation, Recorder, ReportFailed, Runs, Seen, Stamp, add, checkRandom, replay, write,
} from "yehatu";
import { WatchReport, Watcher, watch } from "yehatu/yjs";

/** A message. */
interface Sent {
  value: number;
  stamp: [number, string];
}

/** A register: the write with the later stamp wins. */
class Register {
  clock = 0;
  last: Sent | null = null;

  constructor(readonly name: string) {}

  write(value: number): Sent {
    const sent: Sent = { value, stamp: [this.clock + 1, this.name] };
    this.receive(sent);
    return sent;
  }

  receive(sent: Sent): void {
    const [clock, name] = sent.stamp;
    this.clock = Math.max(this.clock, clock);
    const [last, owner] = this.last?.stamp ?? [0, ""];
    if (clock > last || (clock === last && name > owner)) this.last = sent;
  }

  read(): number | null {
    return this.last?.value ?? null;
  }
}

/** Reports a register, a set and a counter, and returns the reply to a command. */
async function record(): Promise<string> {
  const register = new Register("a");
  const recorder = new Recorder("register", ["a", "b"], { nothing: null });
  const operation = (it: Sent): Operation => write(it.value, it.stamp as Stamp);
  const sent: Sent = await recorder.update("a", operation, { act: () => register.write(1), message: 1 });
  await recorder.deliver("b", 1);
  const seen: Seen = recorder.seen("a");
  await recorder.merge("b", seen);
  const value: number = await recorder.read("b", sent.value);
  await recorder.close();
  const sets = new Recorder("orset", ["a"]);
  await sets.update("a", [add("x"), add("y")], { message: "both" });
  await sets.clear("a");
  await sets.close();
  const lww = new Recorder("lwwset", ["a"], { mustClose: false });
  await lww.add("a", "x", { stamp: 1 });
  await lww.clear("a", { stamps: { x: [2, "a"] } });
  await lww.stop();
  const counter = new Recorder("counter", ["a"]);
  await counter.increment("a", { by: 3, message: value });
  await counter.close();
  const monitor = new Monitor("counter", ["a"]);
  const reply: string = await monitor.tell("a inc");
  await monitor.close();
  return reply;
}

/** Watches documents, and closes the watcher. */
export async function watched(doc: { clientID: number; share: Map<string, unknown> }): Promise<WatchReport> {
  const watcher: Watcher = watch({ ann: doc }, { window: 1 });
  watcher.read({ doc }, "text");
  return watcher.close({ complete: false });
}

const kind: Kind = "register";
const runs: Runs = await checkRandom(Register, kind, { seeds: [1, "2-2"], duplicates: true, weights: { write: 2 } });
const factory: Runs = await checkRandom((name: string) => new Register(name), kind, 2, 10, 3, { delivery: "causal" });
const reported = (error: unknown): ReportFailed | number => (error instanceof ReportFailed ? error : 1);
const failed = await replay(Register, "/nowhere.json").catch(reported);
const isFlaky: boolean = failed instanceof FlakyRun && failed.steps !== undefined;
console.log(runs.runs, runs.unused.length, factory.runs, isFlaky, await record());
