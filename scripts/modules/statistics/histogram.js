// How many leading binary digits of a number are kept.
const DIGITS = 14;

const EXACT = 2 ** DIGITS;

/**
 * The greatest number with the same leading digits that is not above this one.
 * @param {number} number
 */
function classOf(number) {
  if (number < EXACT && number > -EXACT) return number;
  let width = 2;
  for (let rest = Math.abs(number); rest >= 2 * EXACT; rest /= 2) {
    width *= 2;
  }
  return Math.floor(number / width) * width;
}

/**
 * Counts of whole numbers, in bounded memory.
 *
 * Numbers below 16384 are counted each for itself. Larger ones are counted together where their first fourteen binary
 * digits agree, so that a quantile of these is at most 0.013 % too low. The least and the most are exact.
 */
export class Histogram {
  constructor() {
    /** @type {Map<number, number>} */
    this.counts = new Map();
    this.total = 0;
    this.least = 0;
    this.most = 0;
  }

  /** @param {number} number */
  add(number) {
    const key = classOf(number);
    this.counts.set(key, (this.counts.get(key) ?? 0) + 1);
    if (number < this.least || this.total === 0) this.least = number;
    if (number > this.most) this.most = number;
    this.total += 1;
  }

  /**
   * The numbers of both.
   * @param {Histogram} other
   * @returns {Histogram}
   */
  withThoseOf(other) {
    const both = new Histogram();
    both.counts = new Map(this.counts);
    for (const [key, count] of other.counts) {
      both.counts.set(key, (both.counts.get(key) ?? 0) + count);
    }
    both.total = this.total + other.total;
    const counted = [this, other].filter((times) => times.total > 0);
    both.least = counted.length === 0 ? 0 : Math.min(...counted.map((times) => times.least));
    both.most = Math.max(this.most, other.most);
    return both;
  }

  /**
   * The numbers, or the least ones of their classes, with their counts, in order.
   * @returns {[number, number][]}
   */
  pairs() {
    return [...this.counts].sort((one, other) => one[0] - other[0]);
  }

  /**
   * The least number that so many hundredths of all do not exceed; 0 where there are none.
   * @param {number} percent
   * @returns {number}
   */
  quantile(percent) {
    const wanted = Math.ceil((percent * this.total) / 100);
    let passed = 0;
    for (const [key, count] of this.pairs()) {
      passed += count;
      if (passed >= wanted) return Math.max(this.least, key);
    }
    return 0;
  }

  /**
   * How many are above a limit.
   * @param {number} limit
   * @returns {number}
   */
  above(limit) {
    let found = 0;
    for (const [key, count] of this.counts) {
      found += key > limit ? count : 0;
    }
    return found;
  }
}
