import { DayTime } from "../../../scripts/modules/statistics/day-time.js";
import { digitsOf, seconds } from "./units.js";

/** @typedef {import("../worker/desk.js").Begin} Begin */

/** The most digits of a time of day. */
const MOST_DIGITS = 6;

/** Steps of an axis of times of day, in seconds, and those within a second. */
const STEPS = [1, 2, 5, 10, 15, 30, 60, 120, 300, 600, 900, 1800, 3600, 7200, 10800, 21600, 43200, 86400];
const FINE = [1, 2, 5, 10];

const DAY = 86400;

/** By how much ticks may be denser than what is asked for. */
const DENSE = 0.75;

/**
 * Seconds of a day.
 * @param {string} text as 03:00:12.5
 */
const secondsOf = (text) => text.split(":").reduce((sum, part, at) => sum + Number(part) * 60 ** (2 - at), 0);

/** How the page tells places: as seconds, or as times of day where it is known when place 0 was. */
export class Clock {
  /**
   * @param {number} rate
   * @param {Begin|null} [begin]
   * @param {number} [first] the place where the file begins
   */
  constructor(rate, begin = null, first = 0) {
    this.rate = rate;
    this.first = first;
    this.dayTime = begin && new DayTime(begin.text, begin.late);
    this.unit = this.dayTime ? "" : " s";
    this.axisName = this.dayTime === null ? "seconds" : this.dayTime.zone === "Z" ? "UTC" : "time";
  }

  /**
   * A place, without a unit, with as many digits as a stretch of so many bits needs.
   * @param {number} place
   * @param {number} [stretch]
   */
  at(place, stretch = this.rate / 1000) {
    if (this.dayTime === null) return seconds(place, this.rate, stretch);
    const digits = Math.min(MOST_DIGITS, digitsOf(stretch, this.rate));
    return this.dayTime.of(place / this.rate, this.first / this.rate, digits);
  }

  /**
   * The same with its unit.
   * @param {number} place
   * @param {number} [stretch]
   */
  moment(place, stretch) {
    return this.at(place, stretch) + this.unit;
  }

  /**
   * The same without the date.
   * @param {number} place
   */
  time(place) {
    return /** @type {string} */ (this.at(place).split(" ").pop());
  }

  /** Date and time at which the file begins, where they are known. */
  get begin() {
    return this.dayTime === null ? "" : this.dayTime.full(this.first / this.rate);
  }

  /** The second of its day at which place 0 was. */
  get shift() {
    return this.dayTime === null ? 0 : secondsOf(this.dayTime.iso(0, MOST_DIGITS).slice(11));
  }

  /**
   * The place that somebody names: by seconds, or by a time of day.
   * @param {string} text
   * @returns {number|null}
   */
  placeOf(text) {
    if (/^\d+(\.\d*)?$/.test(text)) return Math.round(Number(text) * this.rate);
    if (this.dayTime === null || !/^\d{1,2}:\d\d(:\d\d(\.\d*)?)?$/.test(text)) return null;
    const passed = secondsOf(text) - this.shift;
    const days = Math.ceil((Math.floor(this.first / this.rate) - passed) / DAY);
    return Math.round((passed + Math.max(0, days) * DAY) * this.rate);
  }

  /**
   * Round times of day between two places, each with its label.
   * @param {number} first
   * @param {number} past
   * @param {number} count of them, about
   * @returns {Map<number, string>} labels by places
   */
  ticks(first, past, count) {
    const { shift, rate } = this;
    const ticks = ticksOf(first / rate + shift, past / rate + shift, count);
    return new Map(ticks.map(({ second, label }) => [(second - shift) * rate, label]));
  }
}

/**
 * Round times of day between two, in seconds of a day, each with its label.
 * @param {number} from
 * @param {number} to
 * @param {number} count of them, about
 */
function ticksOf(from, to, count) {
  const least = (to - from) / count;
  const unit = 10 ** Math.floor(Math.log10(least));
  const step = (least < 1 ? FINE.map((some) => some * unit) : STEPS).find((some) => some >= DENSE * least) ?? DAY;
  const digits = Math.max(0, Math.round(-Math.log10(step) + 0.49));
  const first = Math.ceil(from / step);
  return Array.from({ length: Math.max(0, Math.floor(to / step) - first + 1) }, (_, at) => {
    const second = (first + at) * step;
    return { second, label: labelOf(second, step, digits) };
  });
}

/**
 * The label of a tick: without seconds where the steps are of minutes, without hours where they are very small.
 * @param {number} second
 * @param {number} step
 * @param {number} digits
 */
function labelOf(second, step, digits) {
  const [whole, part = ""] = second.toFixed(digits).split(".");
  const now = Number(whole);
  const numbers = [Math.floor(now / 3600) % 24, Math.floor(now / 60) % 60, now % 60];
  const [hours, minutes, seconds] = numbers.map((number) => String(number).padStart(2, "0"));
  if (step >= 60) return `${hours}:${minutes}`;
  const time = part ? `${seconds}.${part}` : seconds;
  return digits > 3 ? `:${time}` : `${hours}:${minutes}:${time}`;
}
