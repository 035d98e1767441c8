// Recorders that were not closed: a warning, and the exit status 3 of the process.

// The exit status of a process that leaves a recorder unclosed, unless it failed already.
const STATUS = 3;
const ADVICE = "await close(), or pass mustClose: false";
// The folders of the client, whose lines of a stack are not those of the user.
const OWN_FOLDERS = [".", "../yjs/"].map((it) => new URL(it, import.meta.url).href);

// The open recorders by number.
const open = new Map();
const forgotten = [];
let numbers = 0;
const collected = new FinalizationRegistry((key) => {
  const description = open.get(key);
  if (!open.delete(key)) return;
  forgotten.push(description);
  process.emitWarning(`${description} was not closed: ${ADVICE}`, "ResourceWarning");
});

/** Adds an open recorder, and returns its key. */
export function register(recorder, description) {
  if (numbers === 0) process.on("exit", endProcess);
  numbers += 1;
  open.set(numbers, description);
  collected.register(recorder, numbers);
  return numbers;
}

/** Removes a recorder that was closed. */
export function close(key) {
  open.delete(key);
}

/** Returns the first place of a stack that is outside the client. */
export function placeOf(stack) {
  const isOwn = (line) => OWN_FOLDERS.some((it) => line.includes(it));
  const line = stack.split("\n").slice(1).find((it) => !isOwn(it)) ?? "an unknown place";
  return line.trim().replace(/^at (?:.* \()?(?:file:\/\/)?([^()]*?)\)?$/, "$1");
}

function endProcess(code) {
  const unclosed = [...forgotten, ...open.values()];
  if (unclosed.length === 0) return;
  process.stderr.write(
    `yehatu: ${unclosed.join("; ")}: not closed, so the last reports were not checked: ${ADVICE}\n`,
  );
  if (!code) process.exitCode = STATUS;
}
