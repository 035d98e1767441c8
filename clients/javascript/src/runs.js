// Runs of plans on the user's own replicas, which the program checks.
import { Driver } from "./driver.js";
import { Check } from "./program.js";
import { Unusable } from "./returned.js";

/** A run whose history is being checked. The program checks it while other runs are executed. */
export class Run {
  #driver;
  #raised;
  #check;

  /** Executes the steps that can be executed, and begins the check of the history. */
  static async start(setting, steps) {
    const run = new Run();
    run.#driver = new Driver(setting, steps);
    run.#raised = await run.#driver.execute(steps);
    run.#check = new Check(setting.program, run.#driver.text());
    return run;
  }

  /** The steps that could be executed. */
  get executed() {
    return this.#driver.executed;
  }

  /**
   * Waits for the program, and returns the failure, or null if all passed. Its cause is `["no"]`,
   * `["refused", REASON]`, `["raised", NAME]`, `["returned", TYPE]` for a result that cannot be reported, or
   * `["changed", "message"]` or `["changed", "state"]`.
   */
  async findFailure() {
    const { replies } = await this.#check.wait();
    const driver = this.#driver;
    const { recorder, isAsynchronous, hasInstances, indexes } = driver;
    const found = { recorder, isAsynchronous, hasInstances, indexes };
    const failed = replies.findIndex((it) => /^(no|refused) /.test(it));
    if (failed >= 0) {
      const cause = replies[failed].startsWith("no ") ? ["no"] : replies[failed].split(" ", 2);
      const text = driver.text(failed + 1);
      return { ...found, cause, steps: driver.stepsTo(failed), text, replies: replies.slice(0, failed + 1) };
    }
    if (this.#raised === null) return null;
    const { error } = this.#raised;
    const cause = error instanceof Unusable ? error.failure : ["raised", String(error?.name)];
    const { executed: steps, messages } = driver;
    return { ...found, cause, steps, text: driver.text(), replies, raised: this.#raised, messages };
  }

  /** Ends the check without its result. */
  stop() {
    return this.#check.stop();
  }
}

/** Runs the steps that can be executed and checks the history. Returns the failure, or null if all passed. */
export async function findFailure(setting, steps) {
  return steps.length === 0 ? null : (await Run.start(setting, steps)).findFailure();
}

/** Returns whether two causes of failures are the same. */
export const isSameCause = (one, other) => String(one) === String(other);
