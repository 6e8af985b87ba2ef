import { RATE } from "../port1.js";

/** How long a delay has to stay before it is judged, in seconds; and how slowly the clock of the bits is followed. */
const [STEADY, FOLLOWED] = [10, 60];

/** The same where nothing more comes; and how much less a delay is of input that was late and is caught up. */
const [STEADY_AT_END, CAUGHT_UP] = [1, 0.1];

/** A step of the system's clock that is told, in seconds. */
const STEP = 0.5;

/**
 * A time in seconds since 1970 as ISO 8601 has it.
 * @param {number} time
 */
export const iso = (time) => new Date(Math.round(1000 * time)).toISOString();

/** The clocks of this computer, in seconds: one that is never set, and the time of day. */
export const CLOCKS = { steady: () => performance.now() / 1000, wall: () => Date.now() / 1000 };

/** The most losses whose places are known. */
const MOST_STEPS = 100;

/**
 * A length as it is told.
 * @param {number} seconds
 */
export const rounded = (seconds) => Number(seconds.toFixed(3));

/**
 * When place 0 was by the clock of some place: by the last one, or by a step for the places up to its own.
 * @param {{ zero: number, zeros?: { place: number, zero: number }[] }} known
 * @param {number} place
 */
export const zeroAt = ({ zero, zeros = [] }, place) => zeros.find((step) => place <= step.place)?.zero ?? zero;

/**
 * The time of day of places. A place came at the least delay that was seen in ten seconds; a delay that gets greater
 * and stays so is input that was lost: then the places after it are later than was thought.
 */
export class Wall {
  /** @type {number|null} */
  base = null; // the time of place 0, on the steady clock
  /** @type {{ place: number, base: number }[]} what it was before input was lost, or another recording began */
  steps = [];
  place = 0; // the last one
  settled = 0; // the one up to which times are sure
  /** @type {{ now: number, delay: number }[]} the least delays, each until a lesser one came */
  window = [];
  /** @type {{ first: number, least: number, since: number }|null} */
  risen = null; // delays that are great, since they fell last
  isAnew = true;
  since = 0; // when the first delay came that is judged
  last = 0;

  /** @param {number} lost seconds that are told @param {{ steady: () => number, wall: () => number }} [clocks] */
  constructor(lost, clocks = CLOCKS) {
    this.lost = lost;
    this.clocks = clocks;
    this.shift = clocks.wall() - clocks.steady();
  }

  now() {
    return this.clocks.wall();
  }

  /** How far the system's clock was set since the last look, in seconds; 0 for less than is told. */
  set() {
    const shift = this.clocks.wall() - this.clocks.steady();
    const step = shift - this.shift;
    this.shift = shift;
    return Math.abs(step) < STEP ? 0 : step;
  }

  /** Begins anew with the next place: what comes then was not sent when what came before it was. */
  restart() {
    this.settle();
    this.isAnew = true;
    this.window = [];
  }

  /**
   * No more is to be known of what came.
   * @returns {number} seconds that were lost
   */
  settle() {
    const lost = this.lostAtEnd;
    if (lost > 0) this.step(/** @type {number} */ (this.base) + lost);
    this.settled = this.place;
    this.risen = null;
    return lost;
  }

  /** What was lost, in seconds, were nothing more to come. */
  get lostAtEnd() {
    const { risen, last, base } = this;
    return risen && last - risen.since >= STEADY_AT_END ? risen.least - /** @type {number} */ (base) : 0;
  }

  /**
   * Takes down that places up to one have come now.
   * @param {number} place
   * @returns {number} seconds that were lost
   */
  take(place) {
    const now = this.clocks.steady();
    const delay = now - place / RATE;
    if (this.window.length === 0 || now - this.last > 1) [this.window, this.since, this.risen] = [[], now, null];
    const elapsed = now - this.last;
    this.last = now;
    while (this.window.length > 0 && this.window[this.window.length - 1].delay >= delay) this.window.pop();
    this.window.push({ now, delay });
    while (this.window[0].now < now - STEADY) this.window.shift();
    const lost = this.follow(this.window[0].delay, elapsed, now);
    this.place = place;
    if (delay - /** @type {number} */ (this.base) >= this.lost) this.rise(delay, now);
    else [this.settled, this.risen] = [place, null];
    return lost;
  }

  /** @param {number} delay @param {number} now */
  rise(delay, now) {
    const { risen } = this;
    if (risen && delay > risen.first - CAUGHT_UP) risen.least = Math.min(risen.least, delay);
    else this.risen = { first: delay, least: delay, since: now };
  }

  /**
   * What comes after what is settled has another time.
   * @param {number} base
   */
  step(base) {
    if (this.base !== null) this.steps.push({ place: this.settled, base: this.base });
    if (this.steps.length > MOST_STEPS) this.steps.shift();
    this.base = base;
  }

  /** @param {number} least @param {number} elapsed @param {number} now */
  follow(least, elapsed, now) {
    const step = this.base === null ? 0 : least - this.base;
    if (this.base === null || this.isAnew) {
      this.step(least);
      this.isAnew = false;
    } else if (step < 0) {
      this.base = least;
    } else if (step < this.lost) {
      this.base += step * Math.min(1, elapsed / FOLLOWED);
    } else if (now - this.since >= STEADY) {
      this.step(least);
      [this.window, this.since] = [[], now];
      return step;
    }
    return 0;
  }

  /** The time of place 0, in seconds since 1970, by the last place. */
  get zero() {
    return (this.base ?? this.clocks.steady()) + this.shift;
  }

  /** The same by the places before. */
  get zeros() {
    return this.steps.map(({ place, base }) => ({ place, zero: base + this.shift }));
  }

  /** Both, were nothing more to come. */
  get atEnd() {
    const { zero, zeros, lostAtEnd, settled } = this;
    if (lostAtEnd === 0) return { zero, zeros };
    return { zero: zero + lostAtEnd, zeros: [...zeros, { place: settled, zero }] };
  }
}

/** The same of a recording that began at a known time: its bits are the clock. */
export class RecordedWall {
  place = 0;
  settled = Infinity;
  lostAtEnd = 0;
  /** @type {{ place: number, zero: number }[]} */
  zeros = [];

  /** @param {number} zero */
  constructor(zero) {
    this.zero = zero;
  }

  now() {
    return this.zero + this.place / RATE;
  }

  set() {
    return 0;
  }

  restart() {}

  settle() {
    return 0;
  }

  get atEnd() {
    return { zero: this.zero, zeros: this.zeros };
  }

  /** @param {number} place */
  take(place) {
    this.place = place;
    return 0;
  }
}
