import { Fault } from "../fault.js";
import { MOST } from "./changes.js";
import { Moments } from "./moments.js";

/** Octets of a record, and where its count has its second half. */
const RECORD = 8;
const HALF = 4;

/** So much of a count stands beside the levels. */
const LOW = 2 ** 24;

/** A recording with changes, as runs of levels. It begins where all its channels have a level. */
export class Runs {
  /**
   * @param {string[]} channels
   * @param {number|null} ticks in a second
   * @param {number} unit ticks in a sample
   */
  constructor(channels, ticks, unit) {
    this.unit = unit;
    this.channels = channels;
    this.when = new Moments(ticks);
    this.begin = 0;
    this.levels = -1; // of the last change; none before the recording begins
    this.reached = 0;
  }

  /** @param {AsyncGenerator<import("./changes.js").Changes>} changes @returns {AsyncGenerator<Uint8Array>} */
  async *of(changes) {
    for await (const some of changes) {
      const unknown = this.unknownIn(some);
      yield this.recordsOf(some, unknown?.at ?? some.times.length);
      if (unknown) throw new Fault(`${unknown.name} has no level at ${this.when.of(some.times[unknown.at])}`);
    }
  }

  /**
   * Where a channel has no level any more.
   * @param {import("./changes.js").Changes} changes
   */
  unknownIn({ levels }) {
    const begun = this.levels >= 0 ? 0 : levels.findIndex((level) => level < 1 << MOST);
    const at = begun < 0 ? -1 : levels.findIndex((level, index) => index >= begun && level >= 1 << MOST);
    if (at < 0) return null;
    return { at, name: this.channels.find((_, channel) => levels[at] & (1 << (channel + MOST))) };
  }

  /**
   * The runs up to a change, or to the end.
   * @param {import("./changes.js").Changes} changes
   * @param {number} end
   */
  recordsOf({ times, levels, past }, end) {
    const records = new DataView(new ArrayBuffer(RECORD * (end + 1)));
    let used = 0;
    const stand = (/** @type {number} */ tick) => {
      const time = Math.floor(tick / this.unit);
      const count = time - this.reached;
      if (this.levels < 0 || count === 0) return;
      records.setUint32(used, (((count % LOW) << 8) | this.levels) >>> 0, true);
      records.setUint32(used + HALF, Math.floor(count / LOW), true);
      used += RECORD;
      this.reached = time;
    };
    for (let at = 0; at < end; at++) {
      if (this.levels < 0 && levels[at] >= 1 << MOST) continue;
      if (this.levels < 0) this.begin = this.reached = Math.floor(times[at] / this.unit);
      stand(times[at]);
      this.levels = levels[at];
    }
    stand(end < times.length ? times[end] : past);
    return new Uint8Array(records.buffer, 0, used);
  }
}
