import { noVerdicts } from "../listing/kinds.js";
import { RATE } from "../port1.js";
import { graveGap } from "../statistics/gaps.js";

/** The fewest gaps of which one is called usual, and how many of them are kept. */
const [FEWEST_GAPS, GAPS_KEPT] = [16, 64];

/** The bounds of the classes of times to answers, in seconds. */
export const BOUNDS = [0.001, 0.002, 0.003, 0.005, 0.01, 0.02, 0.05];

/** The commands of a station and type. */
export class Kind {
  /** @type {number|null} */
  last = null; // where the last one began
  usual = 0; // the usual gap, in places; 0 where it is not known yet
  /** @type {number[]} */
  gaps = [];
  sent = 0;
  verdicts = noVerdicts();
  bad = 0; // commands in a row whose answer was bad,
  badFrom = 0; // and where the first one began
  isBad = false; // whether that was told,
  isGone = false; // and a gap that goes on
  /** @type {number|null} */
  since = null; // when that began, in seconds since 1970, where it was in an earlier run
  /** @type {number[]} */
  replies = new Array(BOUNDS.length + 1).fill(0);
  replySeconds = 0;

  /** @param {number|undefined} fixed the longest gap that is no fault, where it is given */
  constructor(fixed) {
    this.fixed = fixed;
  }

  /** The longest gap that is no fault; none while the usual one is not known. */
  get limit() {
    if (this.fixed !== undefined) return this.fixed;
    return this.usual === 0 ? Infinity : graveGap(this.usual, RATE);
  }

  /**
   * Takes a usual gap down.
   * @param {number} gap
   */
  learn(gap) {
    this.gaps.push(gap);
    if (this.gaps.length > GAPS_KEPT) this.gaps.shift();
    const isDue = this.usual === 0 || this.sent % GAPS_KEPT === 0;
    if (this.gaps.length < FEWEST_GAPS || !isDue) return;
    this.usual = [...this.gaps].sort((one, other) => one - other)[this.gaps.length >> 1];
  }

  /** @param {number} bits from a command to its answer */
  reply(bits) {
    const seconds = bits / RATE;
    const at = BOUNDS.findIndex((bound) => seconds <= bound);
    this.replies[at < 0 ? BOUNDS.length : at] += 1;
    this.replySeconds += seconds;
  }

  /**
   * What outlives the watch.
   * @param {(place: number) => number} timeOf a place
   */
  kept(timeOf) {
    const from = this.isGone ? this.last : this.bad > 0 || this.isBad ? this.badFrom : null;
    const since = this.since ?? (from === null ? null : timeOf(from));
    const { usual, last, bad, badFrom, isBad, isGone } = this;
    return { usual, last, bad, badFrom, isBad, isGone, since };
  }
}
