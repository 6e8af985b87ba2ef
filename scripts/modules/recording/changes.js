import { Fault } from "../fault.js";

/** How many channels are followed at most: bit k of a level is channel k, bit k + MOST says that it is unknown. */
export const MOST = 4;

/**
 * @typedef {object} Changes
 * @property {Float64Array} times in ascending order, whole numbers of ticks
 * @property {Uint8Array} levels of all channels from each of these times on
 * @property {number} past all changes before this time have been told
 */

/**
 * A recording that has changes.
 * @typedef {object} Changed
 * @property {number|null} ticks in a second, where the recording says so
 * @property {AsyncGenerator<Changes>} changes
 * @property {number[]} positions of the channels, the same for channels that are one
 * @property {() => import("./seams.js").Seam[]} [faults] of what was read, in ticks
 */

/** Changes, one added after the other. */
export class ChangeList {
  constructor() {
    this.times = new Float64Array(1024);
    this.levels = new Uint8Array(1024);
    this.count = 0;
  }

  /**
   * @param {number} time
   * @param {number} levels
   */
  add(time, levels) {
    if (this.count === this.times.length) this.grow();
    this.times[this.count] = time;
    this.levels[this.count] = levels;
    this.count += 1;
  }

  grow() {
    const { times, levels } = this;
    this.times = new Float64Array(2 * times.length);
    this.times.set(times);
    this.levels = new Uint8Array(2 * levels.length);
    this.levels.set(levels);
  }

  /**
   * The changes that were added since the last time.
   * @param {number} past
   * @returns {Changes}
   */
  take(past) {
    const taken = { times: this.times.slice(0, this.count), levels: this.levels.slice(0, this.count), past };
    this.count = 0;
    return taken;
  }
}

/**
 * What reads changes.
 * @typedef {object} Reader
 * @property {(octets: Uint8Array, begin: number, past: number) => void} read
 * @property {() => Changes} changes that were read
 * @property {() => Changes} end those, and how long the last levels stand at least
 */

/**
 * The changes in some octets; those before a fault come before it is thrown.
 * @param {Reader} reader
 * @param {Uint8Array} octets
 */
export function* changesIn(reader, octets, begin = 0, past = octets.length) {
  try {
    reader.read(octets, begin, past);
  } catch (fault) {
    yield reader.end();
    throw fault;
  }
  yield reader.changes();
}

/**
 * A time, which has to be a whole number that a double holds exactly.
 * @param {number} time
 * @param {string} told what the recording says
 * @returns {number}
 */
export function safeTime(time, told) {
  if (!Number.isSafeInteger(time)) {
    throw new Fault(`${told} is beyond the times that are read, which end at ${Number.MAX_SAFE_INTEGER} ticks`);
  }
  return time;
}
