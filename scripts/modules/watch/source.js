import { spawn } from "node:child_process";
import { createInterface } from "node:readline";

/** @typedef {import("node:child_process").Child} Child */

/** Pieces below so many octets are gathered for some milliseconds, so that the watch sleeps most of the time. */
const [SMALL, GATHER] = [8192, 100];

/** The longest wait before a command is started again, in seconds; and how long a run has to last to be a good one. */
const [LONGEST_WAIT, GOOD_RUN] = [60, 60];

/** What `recording-to-bits --events` tells. */
const EVENT = /^recording-to-bits: event: (.*)$/;

/** How long a command may take to end, in milliseconds. */
const PATIENCE = 5000;

/** @param {number} milliseconds */
const pause = (milliseconds) => new Promise((done) => setTimeout(done, milliseconds));

/** Reads a stream as it comes. */
export class Input {
  hasEnded = false;
  wake = () => {};

  /** @param {import("node:stream").Readable} stream */
  constructor(stream) {
    this.stream = stream;
    const end = () => {
      this.hasEnded = true;
      this.wake();
    };
    stream.on("readable", () => this.wake());
    stream.on("end", end);
    stream.on("close", end);
    stream.on("error", end);
  }

  /** All that has come, or null where nothing comes any more or the wait was broken off. */
  async next() {
    const piece = this.stream.read();
    if (piece !== null) {
      if (piece.length < SMALL && !this.hasEnded) await pause(GATHER);
      return piece;
    }
    if (!this.hasEnded) await new Promise((done) => (this.wake = () => done(undefined)));
    return this.stream.read();
  }
}

/** A command that writes bits, which is started again when it ends. */
export class Source {
  wait = 1;
  said = "";
  begun = 0;
  /** @type {Child|null} */
  child = null;
  /** @type {Promise<number|string>} */
  status = Promise.resolve(0);

  /** @param {string} command of the shell @param {(text: string) => void} [doubt] hears what it says is doubtful */
  constructor(command, doubt = () => undefined) {
    this.command = command;
    this.doubt = doubt;
  }

  /** Starts it, and gives what it writes. Its standard input stays open: some recorders end where there is none. */
  start() {
    const words = ["-o", "pipefail", "-c", this.command];
    this.child = spawn("bash", words, { detached: true, stdio: ["pipe", "pipe", "pipe"] });
    this.begun = performance.now();
    this.said = "";
    this.child.stdin.on("error", () => {});
    createInterface({ input: this.child.stderr }).on("line", (line) => this.hear(line));
    this.status = new Promise((done) => {
      const child = /** @type {Child} */ (this.child);
      child.on("error", (fault) => done(fault.message));
      child.on("close", (status, signal) => done(status ?? signal));
    });
    return this.child.stdout;
  }

  /**
   * Hears a line of standard error: an event of recording-to-bits, or what may be its last words.
   * @param {string} line
   */
  hear(line) {
    const [, event] = EVENT.exec(line) ?? [];
    if (event === undefined) this.said = `${this.said}${line}\n`.slice(-400);
    else this.doubt(event);
  }

  /** How it ended, and how many seconds to wait before it is started again. */
  async ended() {
    const status = await this.status;
    const isGood = performance.now() - this.begun > 1000 * GOOD_RUN;
    const wait = isGood ? 1 : this.wait;
    this.wait = Math.min(2 * wait, LONGEST_WAIT);
    return { status, said: this.said.trim(), wait };
  }

  /** Asks it to end, and after some seconds ends it: what is in the pipe can still be read. */
  stop() {
    this.send("SIGTERM");
    const timer = setTimeout(() => this.send("SIGKILL"), PATIENCE);
    this.status.then(() => clearTimeout(timer));
  }

  /** @param {string} signal to all of it */
  send(signal) {
    try {
      const { pid } = /** @type {Child} */ (this.child);
      process.kill(-pid, signal);
    } catch {
      // it has ended
    }
  }
}
