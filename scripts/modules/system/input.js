import { read } from "node:fs";
import { promisify } from "node:util";
import { ListingReader } from "../listing/read.js";
import { plainPieces, plainText } from "../text.js";
import { onEndOfStream } from "./signals.js";

const readSome = promisify(read);

/** Octets of one read of a listing. */
const PIECE = 1 << 16;

/** How long to wait for a pipe that does not block, in milliseconds. */
const PAUSE = 10;

/** How long what waits in a pipe is still read after a signal, and each read is waited for, in milliseconds. */
const [LINGER, LAST_READ] = [500, 100];

/** @param {number} milliseconds */
const pause = (milliseconds) => new Promise((done) => setTimeout(done, milliseconds));

/**
 * Reads octets of standard input into some room.
 * @param {Uint8Array} room
 * @returns {Promise<number>} how many
 */
async function readInto(room) {
  for (;;) {
    try {
      return (await readSome(0, room, 0, room.length, null)).bytesRead;
    } catch (error) {
      if (/** @type {{ code?: string }} */ (error).code !== "EAGAIN") throw error;
      await pause(PAUSE);
    }
  }
}

/**
 * Standard input piece by piece, as it comes. A piece stands until the next one.
 * @param {number} [size] octets of a piece, at most
 * @returns {AsyncGenerator<Uint8Array>}
 */
async function* allOfInput(size = PIECE) {
  const room = new Uint8Array(size);
  for (let count = await readInto(room); count > 0; count = await readInto(room)) yield room.subarray(0, count);
}

/** Standard input that a signal ends, once that is read which has come. */
class Stream {
  past = Infinity; // when reading is to end
  /**
   * The read that has begun.
   * @type {Promise<number>|null}
   */
  reading = null;
  /** Ends the wait for octets. */
  wake = () => {};

  constructor() {
    onEndOfStream(() => {
      this.past = Date.now() + LINGER;
      this.limit();
    });
  }

  limit() {
    setTimeout(() => this.wake(), LAST_READ);
  }

  /**
   * Waits for octets.
   * @param {Uint8Array} room where they go: the same one until some have come
   * @param {number} until when the wait ends
   * @returns {Promise<number|null>} how many; 0 at the end of the stream, and `null` at that of the wait
   */
  async next(room, until) {
    if (Date.now() > this.past) return 0;
    const reading = (this.reading ??= readInto(room));
    /** @type {ReturnType<typeof setTimeout>|undefined} */
    let timer;
    const count = await new Promise((done, fail) => {
      this.wake = () => done(0);
      if (this.past < Infinity) this.limit();
      if (until < Infinity) timer = setTimeout(done, until - Date.now(), null);
      reading.then(done, fail);
    });
    clearTimeout(timer);
    if (count !== null) this.reading = null;
    return count;
  }
}

/**
 * The same, of a stream: a signal ends it, once that is read which has come.
 * @param {number} [size]
 * @param {{ least: number, milliseconds: number }} gather octets of the first piece at least, unless it is the last
 *   one; and how long after its first octets a piece is handed out
 * @returns {AsyncGenerator<Uint8Array>}
 */
export async function* standardInput(size = PIECE, gather = { least: 1, milliseconds: 0 }) {
  const [room, stream] = [new Uint8Array(size), new Stream()];
  // The piece lies between `begin` and `end`; once it has `least` octets, more of it is awaited up to `until`.
  let [begin, end, until, least] = [0, 0, Infinity, gather.least];
  for (let isOpen = true; isOpen; ) {
    const count = await stream.next(room.subarray(end), end - begin < least ? Infinity : until);
    isOpen = count !== 0;
    if (end === begin) until = Date.now() + gather.milliseconds;
    end += count ?? 0;
    const isWhole = end - begin >= least && Date.now() >= until;
    if (isOpen && end < size && !isWhole) continue;
    if (end > begin) yield room.subarray(begin, end);
    least = 1;
    // A read that has begun writes behind the piece.
    if (stream.reading === null) end = 0;
    begin = end;
  }
}

/** All of standard input, as text. A signal ends the command: this is no stream of which a part would do. */
export async function textOfInput() {
  const pieces = [];
  for await (const piece of allOfInput()) pieces.push(Buffer.from(piece));
  return plainText(Buffer.concat(pieces), "standard input");
}

/**
 * The rows of a listing that comes in pieces, in memory that does not grow with it. Those before a line that is none of
 * a listing come before its fault is thrown.
 * @param {AsyncIterable<Uint8Array>|Iterable<Uint8Array>} [pieces] standard input, unless given
 * @returns {AsyncGenerator<Iterable<import("../listing/listing.js").Row>>}
 */
export async function* rowsOfInput(pieces = standardInput()) {
  const reader = new ListingReader();
  try {
    for await (const piece of plainPieces(pieces)) {
      reader.take(piece);
      yield reader.newRows();
      reader.forget();
    }
    reader.end();
  } finally {
    yield reader.newRows();
  }
}
