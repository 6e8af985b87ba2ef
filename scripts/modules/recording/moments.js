/** How times are told: in seconds, where a recording says how many ticks a second has. */
export class Moments {
  /** @param {number|null} ticks in a second @param {number} begin of the recording, in ticks */
  constructor(ticks, begin = 0) {
    this.ticks = ticks;
    this.begin = begin;
  }

  /** @param {number} sample */
  second(sample) {
    return this.ticks ? (this.begin + sample) / this.ticks : null;
  }

  /** @param {number} sample */
  of(sample) {
    const second = this.second(sample);
    return second === null ? `sample ${this.begin + sample}` : `${second.toFixed(6)} s`;
  }

  /**
   * A length of time.
   * @param {number} samples
   */
  length(samples) {
    return this.ticks ? `${(samples / this.ticks).toFixed(6)} s` : `${samples} samples`;
  }
}
