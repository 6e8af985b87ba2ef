import { Fault } from "./fault.js";

/**
 * A file or a part of one, as a browser's Blob and a part of an open file are read.
 * @typedef {object} Part
 * @property {number} size
 * @property {(from?: number, past?: number) => Part} slice
 * @property {() => ReadableStream<Uint8Array>} stream
 * @property {() => Promise<ArrayBuffer>} arrayBuffer
 */

/** Octets of one read of a stream. */
const READ = 1 << 20;

/**
 * What reads the octets of a file from one place to another.
 * @typedef {(from: number, past: number) => ArrayBuffer|Promise<ArrayBuffer>} Read
 */

/** A part of a file that is read by its places, as a Blob has it. */
export class ReadPart {
  /** @param {Read} read @param {number} from @param {number} past */
  constructor(read, from, past) {
    this.read = read;
    this.from = from;
    this.past = past;
  }

  get size() {
    return this.past - this.from;
  }

  slice(from = 0, past = this.size) {
    return new ReadPart(this.read, Math.min(this.past, this.from + from), Math.min(this.past, this.from + past));
  }

  async arrayBuffer() {
    return this.read(this.from, this.past);
  }

  /** @returns {ReadableStream<Uint8Array>} */
  stream() {
    let at = 0;
    return new ReadableStream({
      pull: async (stream) => {
        if (at >= this.size) return stream.close();
        const octets = new Uint8Array(await this.slice(at, at + READ).arrayBuffer());
        at += READ;
        stream.enqueue(octets);
      },
    });
  }
}

/** What browsers call it when a file is another than the one that was chosen. */
const CHANGED = new Set(["NotReadableError", "NotFoundError"]);

/**
 * The fault that an error in reading a file is; where it is none of these, one with the words given, if any.
 * @param {unknown} error
 */
export function faultOf(error, otherwise = "") {
  if (CHANGED.has(/** @type {Error} */ (error).name)) return new Fault("the file changed while it was read");
  return error instanceof Fault || otherwise === "" ? error : new Fault(otherwise);
}

/**
 * The octets of a part of a file.
 * @param {Part} part
 * @returns {Promise<Uint8Array>}
 */
export async function octetsOf(part) {
  try {
    return new Uint8Array(await part.arrayBuffer());
  } catch (error) {
    throw faultOf(error);
  }
}

/**
 * Octets with others before them.
 * @param {Uint8Array} first
 * @param {Uint8Array} second
 * @returns {Uint8Array}
 */
export function joined(first, second) {
  if (first.length === 0) return second;
  const both = new Uint8Array(first.length + second.length);
  both.set(first);
  both.set(second, first.length);
  return both;
}
