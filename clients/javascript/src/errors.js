// The errors of the client, one class for each cause.

/** The program could not be started, or exited before its input ended. The message has its standard error. */
export class MonitorExited extends Error {
  name = "MonitorExited";
}

/** The text format cannot represent a value. The message names the value and what to do instead. */
export class NotRepresentable extends Error {
  name = "NotRepresentable";
}

/**
 * A report that the program did not accept: a description of the operation, the reply, and the file with the history
 * up to this report, which `ra_monitor check` reads.
 */
export class ReportFailed extends Error {
  constructor(message, operation, reply, history, options) {
    super(message, options);
    this.operation = operation;
    this.reply = reply;
    this.history = history;
    /** The file with the steps of a random run, which `replay` runs again. */
    this.steps = undefined;
  }
}

/** The program found a violation. The cause is the condition that fails: `order`, `update` or `query`. */
export class NotLinearizable extends ReportFailed {
  name = "NotLinearizable";

  get cause() {
    return this.reply.split(" ").at(-1);
  }
}

/** The program rejected a report, for the reason `cause`. The likely cause is that something was reported wrongly. */
export class Refused extends ReportFailed {
  name = "Refused";

  get cause() {
    return this.reply.slice("refused ".length);
  }
}

/**
 * A replica of a random run threw an error, which is the `cause` of this one. A `read()` that returned what the text
 * format cannot represent counts too; the `cause` is `NotRepresentable`. So does a message or a state that changed
 * after it was returned; then the `cause` is undefined. The history ends before the call, and the message and the
 * stored steps have it.
 */
export class ReplicaRaised extends ReportFailed {
  name = "ReplicaRaised";
}

/** A random run failed, and the same steps did not fail in the same way again: the class is not deterministic. */
export class FlakyRun extends ReportFailed {
  name = "FlakyRun";
}
