// The text that `watch` has read.
import { randomBytes } from "node:crypto";
import { closeSync, copyFileSync, ftruncateSync, openSync, readSync, unlinkSync, writeSync } from "node:fs";
import { tmpdir } from "node:os";
import { join } from "node:path";

// The longest line that the text format has, in bytes.
const LONGEST_LINE = 1_048_576;
const CHUNK = 1 << 16;
const LINE_FEED = 10;
// The largest number of pieces of an unfinished line.
const MOST_PIECES = 64;

/**
 * The text that was read: whole lines, which are kept in a temporary file, and an unfinished last line. Memory holds
 * the unfinished line alone. Where the file cannot be written, as on a full disk, the text is no longer kept: the
 * monitor goes on, and there is no page. `fault` says why.
 */
export class Text {
  fault = "";
  #file;
  #partial = [];
  #partialLength = 0;

  constructor() {
    const path = temporaryPath();
    this.#file = openSync(path, "wx+", 0o600);
    // Without a name, nothing is left of it where the process is killed.
    unlinkSync(path);
  }

  /** Adds what was read. Returns the lines that are whole now, or the beginning of a line that is too long. */
  add(chunk) {
    const found = chunk.lastIndexOf(LINE_FEED) + 1;
    if (found === 0 && this.#partialLength + chunk.length <= LONGEST_LINE) {
      this.#hold(chunk);
      return Buffer.alloc(0);
    }
    const end = found || chunk.length;
    const lines = Buffer.concat([...this.#partial, chunk.subarray(0, end)]);
    this.#partial = [];
    this.#partialLength = 0;
    this.#hold(chunk.subarray(end));
    this.#keep(lines);
    return lines;
  }

  /** Returns the unfinished line, once the source has ended. */
  end() {
    const lines = Buffer.concat(this.#partial);
    this.#partial = [];
    this.#keep(lines);
    return lines;
  }

  /** Calls the function with the file, opened at its start, and returns its result, or null if it lacks a part. */
  withFile(call) {
    if (this.fault) return null;
    const file = openSync(this.#path(), "r");
    try {
      return call(file);
    } finally {
      closeSync(file);
    }
  }

  /** Removes what follows this number of lines. */
  cut(lines) {
    if (!this.fault) ftruncateSync(this.#file, this.#offset(lines));
  }

  /** Returns the beginning of the line of this number, counted from 1, or nothing if it is not kept. */
  line(number) {
    if (this.fault) return "";
    const buffer = Buffer.alloc(CHUNK);
    const length = readSync(this.#file, buffer, 0, CHUNK, this.#offset(number - 1));
    return buffer.toString("latin1", 0, length).split("\n")[0];
  }

  /** Writes the text to a new file, whose path it returns. */
  copy() {
    const path = temporaryPath();
    copyFileSync(this.#path(), path);
    return path;
  }

  close() {
    closeSync(this.#file);
  }

  #path() {
    return `/proc/self/fd/${this.#file}`;
  }

  #hold(chunk) {
    if (chunk.length === 0) return;
    // A copy, so that a few bytes do not keep the whole buffer.
    this.#partial.push(Buffer.from(chunk));
    this.#partialLength += chunk.length;
    if (this.#partial.length > MOST_PIECES) this.#partial = [Buffer.concat(this.#partial)];
  }

  #keep(lines) {
    if (this.fault) return;
    try {
      for (let at = 0; at < lines.length;) at += writeSync(this.#file, lines, at);
    } catch (error) {
      this.fault = error.message;
    }
  }

  /** Returns the offset behind this number of lines. */
  #offset(lines) {
    const buffer = Buffer.alloc(CHUNK);
    let offset = 0;
    for (let left = lines; left > 0;) {
      const length = readSync(this.#file, buffer, 0, CHUNK, offset);
      if (length === 0) break;
      let at = 0;
      for (; left > 0 && at < length; left -= 1) {
        const end = buffer.subarray(0, length).indexOf(LINE_FEED, at);
        if (end < 0) break;
        at = end + 1;
      }
      offset += left > 0 ? length : at;
    }
    return offset;
  }
}

const temporaryPath = () => join(tmpdir(), `yehatu_${randomBytes(6).toString("hex")}.rah`);
