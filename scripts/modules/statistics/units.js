/**
 * Places and bits as times.
 * @param {number} rate bits a second
 * @param {import("./day-time.js").DayTime|null} [dayTime] when place 0 was, so that times of day are told
 * @param {number} [first] the place where the listing begins
 */
export function unitsOf(rate, dayTime = null, first = 0) {
  /** @param {number} bits */
  const inMilliseconds = (bits) => (bits * 1000) / rate;
  /** @param {number} place */
  const seconds = (place) => (place / rate).toFixed(3);
  /** @param {number} place */
  const clock = (place) => (dayTime === null ? seconds(place) : dayTime.of(place / rate, first / rate));
  const unit = dayTime === null ? " s" : "";
  return {
    seconds,

    /** The time of day of a place, or else its second, without a unit. */
    clock,

    /**
     * The same with its unit.
     * @param {number} place
     */
    moment: (place) => clock(place) + unit,

    /**
     * Those of several places.
     * @param {number[]} places
     */
    moments: (places) => listed(places.map(clock)) + unit,

    /** @param {number} bits */
    milliseconds: (bits) => inMilliseconds(bits).toFixed(2),

    /**
     * A length of time, in three digits or whole milliseconds.
     * @param {number} bits
     */
    duration: (bits) => durationText(inMilliseconds(bits)),
  };
}

/** @typedef {ReturnType<typeof unitsOf>} Units */

/** @param {number} milliseconds */
function durationText(milliseconds) {
  const decimals = milliseconds < 10 ? 2 : milliseconds < 100 ? 1 : 0;
  const text = milliseconds.toFixed(decimals);
  return `${decimals > 0 ? text.replace(/\.?0+$/, "") : text} ms`;
}

/**
 * A length of time, long ones in seconds.
 * @param {number} bits
 * @param {number} rate
 */
export const lengthOf = (bits, rate) => (bits < rate ? unitsOf(rate).duration(bits) : `${(bits / rate).toFixed(1)} s`);

/**
 * From the least to the most of some times.
 * @param {import("./histogram.js").Histogram} times
 * @param {Units} units
 */
export function spanOf(times, units) {
  const [least, most] = [units.duration(times.least), units.duration(times.most)];
  return least === most ? least : `${least.slice(0, -" ms".length)} to ${most}`;
}

/**
 * Several words in a sentence, as `a, b and c`.
 * @param {string[]} words
 */
export const listed = (words) =>
  words.length < 2 ? words.join("") : `${words.slice(0, -1).join(", ")} and ${words[words.length - 1]}`;
