import { spawn, spawnSync } from "node:child_process";
import { Fault } from "../fault.js";
import { ListingReader } from "../listing/read.js";
import { Account } from "./account.js";

/**
 * The words of a call of `port1 list`.
 * @param {import("./forms.js").Form} form
 * @param {string} dictionary
 */
export const wordsOfList = (form, dictionary, place = 0) => [
  ...["list", ...form.options, "--origin", String(place), "--dict", dictionary],
];

/**
 * What `port1` says of a dictionary, if it refuses it.
 * @param {string} program
 * @param {string} dictionary
 */
export function refusalOf(program, dictionary) {
  const words = ["list", "--bits", "--two", "--dict", dictionary];
  const { error, stderr, status } = spawnSync(program, words, { input: "" });
  if (error) throw error;
  return status === 0 ? "" : stderr.toString().trim();
}

/** The running `port1`, which is fed bits and whose lines are heard. */
export class ListProgram {
  reader = new ListingReader();
  said = "";

  /**
   * @param {string} program
   * @param {import("./forms.js").Form} form
   * @param {string} dictionary
   * @param {number} place of the first bit
   * @param {(rows: Iterable<import("../listing/listing.js").Row>) => void} hear
   */
  constructor(program, form, dictionary, place, hear) {
    this.hear = hear;
    const words = ["list", "--bits", ...wordsOfList(form, dictionary, place).slice(1)];
    this.child = spawn(program, words, { detached: true }); // what a terminal sends to all is for the watch alone
    this.account = new Account(this.child.pid, place);
    this.child.stdout.on("data", (piece) => this.take(piece));
    this.child.stderr.on("data", (text) => (this.said = `${this.said}${text}`.slice(-400)));
    this.child.stdin.on("error", () => undefined); // it has ended, which is told by its status
    this.status = new Promise((done) => this.child.on("close", (status, signal) => done(status ?? signal)));
    this.hasEnded = false;
    this.status.then(() => (this.hasEnded = true));
  }

  async begin() {
    try {
      await this.account.begin();
    } catch (fault) {
      const status = this.child.exitCode ?? this.child.signalCode;
      throw status === null ? fault : this.endedBy(status);
    }
  }

  /** @param {number|string} status */
  endedBy(status) {
    return new Fault(`port1 ended with ${status}${this.said && `: ${this.said.trim()}`}`);
  }

  /** The place up to which all is decided and heard. */
  get mark() {
    this.account.look();
    return this.account.mark;
  }

  /** @param {Buffer} piece */
  take(piece) {
    this.reader.take(piece);
    this.hear(this.reader.newRows());
    this.reader.forget();
    this.account.hear(piece.length);
  }

  /**
   * Feeds a text.
   * @param {Uint8Array} text
   * @param {number} place after it
   */
  async feed(text, place) {
    this.account.feed(text.length, place);
    if (this.child.stdin.write(text)) return;
    await Promise.race([new Promise((done) => this.child.stdin.once("drain", done)), this.status]);
  }

  /** Ends it: what it was fed is then decided and heard. */
  async end() {
    this.child.stdin.end();
    const status = await this.status;
    if (status !== 0) throw this.endedBy(status);
  }
}
