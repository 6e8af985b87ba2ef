import { existsSync, readFileSync, statSync } from "node:fs";
import { dirname } from "node:path";
import { DISK } from "./disk.js";
import { isRun } from "./memory.js";

/** @typedef {{ event: string, wall: string, run: number, place: number } & Record<string, unknown>} JournalEntry of the log */

/** How much of the end of a log is read for what it has. */
const END = 1 << 18;

const LINE_END = 10;

/** The most lines that wait for a disk that takes no more. */
const MOST_WAITING = 1000;

/**
 * An event of the log, if a line is one.
 * @param {string} line
 * @returns {(JournalEntry & { id: string })|null}
 */
function entryOf(line) {
  try {
    const entry = JSON.parse(line);
    return typeof entry?.event === "string" ? entry : null;
  } catch {
    return null;
  }
}

/** The log: a line of JSON for each event, on standard output and in a file that outlives a full disk. */
export class Journal {
  /** @type {string[]} */
  waiting = [];

  /**
   * @param {string} path
   * @param {(text: string) => void} write
   * @param {(text: string) => void} warn
   * @param {import("./disk.js").Disk} [disk]
   */
  constructor(path, write, warn, disk = DISK) {
    this.path = path;
    this.write = write;
    this.warn = warn;
    this.disk = disk;
    this.isNamed = existsSync(path); // whether a power cut leaves the log its name,
    this.isFlushed = true; // and all its lines
    this.cutOffHalfALine();
  }

  /** The end of the log, from the begin of a line on. */
  end() {
    try {
      const log = readFileSync(this.path);
      const end = log.subarray(-END);
      return end.length < log.length ? end.subarray(end.indexOf(LINE_END) + 1) : end;
    } catch {
      return Buffer.alloc(0);
    }
  }

  /** Drops a line whose end was not written: it was not told. */
  cutOffHalfALine() {
    const end = this.end();
    const half = end.length - 1 - end.lastIndexOf(LINE_END);
    if (half > 0) this.disk.truncate(this.path, statSync(this.path).size - half);
  }

  /**
   * The last events that the log has.
   * @returns {(JournalEntry & { id: string })[]} of which those that are about an incident have its id
   */
  told() {
    return this.end().toString().split("\n").flatMap((line) => entryOf(line) ?? []);
  }

  /** The number of the last run that the log has, or 0. */
  get lastRun() {
    return Math.max(0, ...this.told().map(({ run }) => run).filter(isRun));
  }

  /** @param {JournalEntry} record */
  log(record) {
    const line = `${JSON.stringify(record)}\n`;
    this.write(line);
    this.waiting.push(line);
    if (this.waiting.length > MOST_WAITING) this.waiting.shift();
    this.flush();
  }

  /** Writes what waits; where the disk takes a part of it, that is taken back. */
  flush() {
    const tell = (/** @type {Error} */ fault) => this.warn(`the log: ${fault.message}`);
    try {
      for (; this.waiting.length > 0; this.waiting.shift()) this.disk.append(this.path, this.waiting[0]);
      this.isFlushed = false;
      this.disk.later(() => this.sync(), tell);
    } catch (fault) {
      tell(/** @type {Error} */ (fault));
      try {
        this.cutOffHalfALine();
      } catch {
        // the next line tries again
      }
    }
  }

  /** Flushes what was written. */
  async sync() {
    if (this.isFlushed) return;
    this.isFlushed = true;
    await this.disk.writeTo(this.path, "a", Buffer.alloc(0));
    if (!this.isNamed) await this.disk.syncFolder(dirname(this.path));
    this.isNamed = true;
  }
}
