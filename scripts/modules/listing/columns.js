/** How many numbers there is room for at first. */
export const FIRST_CAPACITY = 1024;

/**
 * The numbers of an array, in one with more room.
 * @template {Float64Array|Uint32Array|Uint16Array|Int16Array|Uint8Array} Numbers
 * @param {Numbers} numbers
 * @param {number} capacity
 * @returns {Numbers}
 */
export function widened(numbers, capacity) {
  const wider = new (/** @type {new (count: number) => Numbers} */ (numbers.constructor))(capacity);
  wider.set(numbers);
  return wider;
}

/** Octets, one run after the other. */
export class OctetHeap {
  octets = new Uint8Array(FIRST_CAPACITY);
  length = 0;

  /**
   * Adds some octets of others.
   * @param {Uint8Array} others
   * @param {number} from
   * @param {number} count
   * @returns {number} where they begin
   */
  add(others, from, count) {
    const begin = this.length;
    this.length += count;
    const { length } = this.octets;
    if (this.length > length) this.octets = widened(this.octets, Math.max(this.length, 2 * length));
    const { octets } = this;
    for (let at = 0; at < count; at++) octets[begin + at] = others[from + at];
    return begin;
  }

  /**
   * Drops all octets but so many from one on.
   * @param {number} from
   * @param {number} count
   */
  keep(from, count) {
    this.octets.copyWithin(0, from, from + count);
    this.length = count;
  }
}
