// How many slots of time with damage are kept apart; when there are more, each is made ten times as long.
const MOST_SLOTS = 4096;

/** How many damaged pieces there were in each stretch of time. */
export class Slots {
  /** @param {number} rate */
  constructor(rate) {
    this.rate = rate;
    this.milliseconds = 1; // in a slot, a power of ten
    /** @type {Map<number, number>} */
    this.counts = new Map();
  }

  /** @param {number} place */
  add(place) {
    const slot = Math.floor((place * 1000) / (this.rate * this.milliseconds));
    this.counts.set(slot, (this.counts.get(slot) ?? 0) + 1);
    while (this.counts.size > MOST_SLOTS) {
      this.milliseconds *= 10;
      this.counts = this.merged(10);
    }
  }

  /**
   * The counts of so many slots together each.
   * @param {number} many
   */
  merged(many) {
    /** @type {Map<number, number>} */
    const merged = new Map();
    for (const [slot, count] of this.counts) {
      const wide = Math.floor(slot / many);
      merged.set(wide, (merged.get(wide) ?? 0) + count);
    }
    return merged;
  }
}
