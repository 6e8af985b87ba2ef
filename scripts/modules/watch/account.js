import { readFileSync } from "node:fs";
import { Fault } from "../fault.js";

/** How long a program may take to begin, and how often it is looked at until then, in milliseconds. */
const [BEGIN, LOOK] = [5000, 5];

/**
 * How many octets a process has read and written, as the kernel counts them (proc(5), /proc/PID/io).
 * @param {number} pid
 */
function countsOf(pid) {
  const text = readFileSync(`/proc/${pid}/io`, "latin1");
  const [, read, written] = /rchar: (\d+)\nwchar: (\d+)/.exec(text) ?? [];
  return { read: Number(read), written: Number(written) };
}

/**
 * Whether a process sleeps: it then waits for its input.
 * @param {number} pid
 */
const sleeps = (pid) => /^.*\) S /.test(readFileSync(`/proc/${pid}/stat`, "latin1"));

/**
 * How far a program has decided what it was fed. It decides and writes what it has read before it reads again: so what
 * it had read before its last read is decided, and known once all is heard that it has written.
 */
export class Account {
  /** @type {{ octets: number, place: number }[]} pieces that were fed, each with the place after it */
  fed = [];
  /** @type {{ read: number, written: number }[]} */
  looks = [];

  /** @param {number} pid @param {number} place of its first bit */
  constructor(pid, place) {
    this.pid = pid;
    this.mark = place;
    this.octets = 0;
    this.heard = 0;
    this.base = { read: 0, written: 0 };
    this.last = 0; // octets that it had read
    this.hasBegun = false;
  }

  /** Waits until the program waits for its input. */
  async begin() {
    try {
      for (const past = Date.now() + BEGIN; !sleeps(this.pid) && Date.now() < past; ) {
        await new Promise((done) => setTimeout(done, LOOK));
      }
      this.base = countsOf(this.pid);
      this.hasBegun = true;
    } catch (fault) {
      throw new Fault(`how far port1 is cannot be seen: ${/** @type {Error} */ (fault).message}`);
    }
  }

  /** @param {number} octets @param {number} place after them */
  feed(octets, place) {
    this.octets += octets;
    this.fed.push({ octets: this.octets, place });
  }

  /** @param {number} octets */
  hear(octets) {
    this.heard += octets;
  }

  /** Looks how far the program is; its counts are gone once it has ended. */
  look() {
    if (!this.hasBegun) return;
    try {
      const { read, written } = countsOf(this.pid);
      if (read - this.base.read > this.last) {
        this.looks.push({ read: this.last, written: written - this.base.written });
        this.last = read - this.base.read;
      }
    } catch {
      return;
    }
    while (this.looks.length > 0 && this.looks[0].written <= this.heard) {
      const { read } = this.looks.splice(0, 1)[0];
      while (this.fed.length > 0 && this.fed[0].octets <= read) this.mark = this.fed.splice(0, 1)[0].place;
    }
  }
}
