import { Fault } from "../../../scripts/modules/fault.js";

const PAGE = 65536;

/** @typedef {bigint|number} Pointer a bigint where addresses have 64 bits */

/**
 * What is called of the library. Each answers a status, which is 0 where it did what it was asked.
 *
 * @typedef {object} Calls
 * @property {(line: Pointer, longest: bigint, origin: bigint) => number} port1_line_init
 * @property {(line: Pointer, octets: Pointer, count: bigint, at: Pointer, end: bigint,
 *   report: Pointer) => number} port1_line_feed
 * @property {(line: Pointer, open: Pointer, first: Pointer) => number} port1_line_open
 * @property {(pair: Pointer) => number} port1_pair_init
 * @property {(pair: Pointer, entries: Pointer, entryCount: bigint, line: number, report: Pointer, octets: Pointer,
 *   count: bigint, seen: Pointer) => number} port1_pair_take
 * @property {(tap: Pointer, wires: Pointer, hold: number, jump: bigint, rest: bigint) => number} port1_tap_init
 * @property {(tap: Pointer, octets: Pointer, count: bigint, width: number, at: Pointer, arrivals: Pointer, room: bigint,
 *   arrived: Pointer) => number} port1_tap_feed
 * @property {(tap: Pointer, runs: Pointer, count: bigint, at: Pointer, arrivals: Pointer, room: bigint,
 *   arrived: Pointer) => number} port1_tap_feed_runs
 * @property {(rest: Pointer, most: bigint) => number} port1_rest_init
 * @property {(rest: Pointer, arrivals: Pointer, count: bigint, at: Pointer, out: Pointer, room: bigint,
 *   put: Pointer) => number} port1_rest_feed
 * @property {(clocks: Pointer, longest: bigint, origin: bigint) => number} port1_clocks_init
 * @property {(clocks: Pointer, arrivals: Pointer, count: bigint, at: Pointer, report: Pointer) => number} port1_clocks_feed
 * @property {(clocks: Pointer, line: number, begun: Pointer, first: Pointer, past: Pointer) => number} port1_clocks_open
 */

/**
 * The library as WebAssembly, and whether its addresses have 64 bits.
 * @typedef {{ module: Uint8Array, isWide: boolean }} Engine
 */

/** The C library, compiled for WebAssembly. Numbers of octets and bits have 64 bits, whatever addresses have. */
export class Library {
  // Of its memory octets, numbers of 32 bits, and any numbers.
  octets = new Uint8Array(0);
  words = new Uint32Array(0);
  view = new DataView(new ArrayBuffer(0));

  /** @param {WebAssembly.Instance} instance @param {boolean} isWide */
  constructor(instance, isWide) {
    this.isWide = isWide;
    this.calls = /** @type {Calls} */ (/** @type {unknown} */ (instance.exports));
    this.memory = /** @type {WebAssembly.Memory} */ (instance.exports.memory);
    this.used = this.memory.buffer.byteLength;
    this.look();
  }

  /** Looks at the memory, which is another buffer once it has grown. */
  look() {
    this.view = new DataView(this.memory.buffer);
    this.octets = new Uint8Array(this.memory.buffer);
    this.words = new Uint32Array(this.memory.buffer);
  }

  /**
   * Takes some octets of memory, all 0, for ever, after those that the library has for itself.
   * @param {number} size
   */
  allocate(size) {
    const begin = this.used;
    this.used += (size + 7) & ~7;
    const lacking = this.used - this.memory.buffer.byteLength;
    if (lacking > 0) {
      this.grow(Math.ceil(lacking / PAGE));
      this.look();
    }
    return begin;
  }

  /**
   * Takes memory for some things, each by its name and size: where each is, and the same as calls take it.
   * @template {string} Name
   * @param {Record<Name, number>} sizes
   */
  places(sizes) {
    const places = /** @type {Record<Name, number>} */ ({});
    const pointers = /** @type {Record<Name, Pointer>} */ ({});
    for (const name of /** @type {Name[]} */ (Object.keys(sizes))) {
      places[name] = this.allocate(sizes[name]);
      pointers[name] = this.pointer(places[name]);
    }
    return { places, pointers };
  }

  /**
   * An address, as calls take it.
   * @param {number} at
   * @returns {Pointer}
   */
  pointer(at) {
    return this.isWide ? BigInt(at) : at;
  }

  /**
   * A 64-bit number in memory, which is one of a place or a count and so below 2^53.
   * @param {number} at
   */
  number(at) {
    return this.view.getUint32(at, true) + 4294967296 * this.view.getUint32(at + 4, true);
  }

  /**
   * Makes the memory longer. Of 64-bit ones browsers take a BigInt, Node 20 still takes a number.
   * @param {number} pages
   */
  grow(pages) {
    const memory = /** @type {{ grow(pages: Pointer): unknown }} */ (this.memory);
    try {
      memory.grow(this.pointer(pages));
    } catch (fault) {
      if (!(fault instanceof TypeError)) throw fault;
      memory.grow(pages);
    }
  }

  /**
   * Calls the library, which has to do what it is asked.
   * @template {keyof Calls} Name
   * @param {Name} name
   * @param {Parameters<Calls[Name]>} words
   */
  call(name, ...words) {
    const status = /** @type {(...words: Pointer[]) => number} */ (this.calls[name])(...words);
    if (status !== 0) throw new Fault(`${name}: the decoder returned ${status}`);
  }
}

/**
 * Compiles the library synchronously: Node 20 can deadlock with its own compiler while it waits for the promise of
 * `WebAssembly.instantiate` alone.
 * @param {Engine} engine
 */
export function libraryOf({ module, isWide }) {
  return new Library(new WebAssembly.Instance(new WebAssembly.Module(module)), isWide);
}
