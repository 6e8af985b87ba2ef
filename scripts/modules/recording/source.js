import { Fault } from "../fault.js";

/** Octets of one read. */
export const PIECE = 1 << 18;

/** The longest line or word, in octets: no analyser writes one that is nearly as long. */
const LONGEST = 1 << 22;

const LINE_END = 10;

/** The octets of a file that comes in pieces of any size. What is read stands until the next read alone. */
export class Source {
  /** @param {AsyncIterable<Uint8Array>|Iterable<Uint8Array>} pieces */
  constructor(pieces) {
    const either = /** @type {Partial<AsyncIterable<Uint8Array>> & Iterable<Uint8Array>} */ (pieces);
    this.pieces = either[Symbol.asyncIterator]?.() ?? either[Symbol.iterator]();
    this.held = new Uint8Array(0);
    this.begin = 0;
    this.past = 0;
  }

  /**
   * So many octets, fewer at the end.
   * @param {number} count
   * @returns {Promise<Uint8Array>}
   */
  async read(count) {
    while (this.past - this.begin < count && (await this.more()));
    return this.take(Math.min(count, this.past - this.begin));
  }

  /** What has come; none at the end. */
  async some() {
    if (this.past === this.begin) await this.more();
    return this.take(this.past - this.begin);
  }

  /** The lines that have come whole, at least one; none at the end. */
  wholeLines() {
    return this.upTo((held) => held.lastIndexOf(LINE_END));
  }

  /** The next line, empty at the end. */
  line() {
    return this.upTo((held) => held.indexOf(LINE_END));
  }

  /**
   * What has come up to a line end, or all at the end.
   * @param {(held: Uint8Array) => number} seek
   * @returns {Promise<Uint8Array>}
   */
  async upTo(seek) {
    for (;;) {
      const held = this.held.subarray(this.begin, this.past);
      const end = seek(held);
      if (end >= 0) return this.take(end + 1);
      if (held.length > LONGEST) throw new Fault(`a line is longer than ${LONGEST} octets`);
      if (!(await this.more())) return this.take(held.length);
    }
  }

  /** The pieces as they come, where none is read otherwise. */
  async *each() {
    for (let next = await this.pieces.next(); !next.done; next = await this.pieces.next()) {
      yield next.value;
    }
  }

  /** Says that no more is wanted. */
  async close() {
    await this.pieces.return?.();
  }

  async more() {
    const { done, value } = await this.pieces.next();
    if (!done) this.append(value);
    return !done;
  }

  /** @param {Uint8Array} piece */
  append(piece) {
    const kept = this.past - this.begin;
    if (this.past + piece.length > this.held.length) {
      const fits = kept + piece.length <= this.held.length;
      const room = fits ? this.held : new Uint8Array(kept + Math.max(piece.length, kept));
      room.set(this.held.subarray(this.begin, this.past));
      [this.held, this.begin, this.past] = [room, 0, kept];
    }
    this.held.set(piece, this.past);
    this.past += piece.length;
  }

  /** @param {number} count */
  take(count) {
    const taken = this.held.subarray(this.begin, this.begin + count);
    this.begin += count;
    return taken;
  }
}

/**
 * What goes on in the next piece: too much of it is a fault.
 * @param {Uint8Array} rest
 * @returns {Uint8Array}
 */
export function notTooLong(rest) {
  if (rest.length > LONGEST) throw new Fault(`a word is longer than ${LONGEST} octets`);
  return rest;
}
