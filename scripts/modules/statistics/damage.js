import { piecesNamed } from "./pieces.js";

// Into how many slots the time is cut, at most, to see where damage is; the most stretches that are shown, and the
// fewest pieces in one that is.
const SLOTS = Object.freeze([30, 12, 6]);
const SHOWN_STRETCHES = 5;
const FEWEST_PIECES = 3;

/**
 * A stretch of time, in milliseconds and as a text in seconds, the damaged pieces in it, and how many percent of all
 * these are.
 * @typedef {{begin: number, past: number, text: string, pieces: number, share: number}} Stretch
 */

/**
 * The least of 1, 2, 5, 10, 20, .. milliseconds that is not below either.
 * @param {number} least
 * @param {number} base
 */
function roundMilliseconds(least, base) {
  let width = 1;
  for (let step = 0; width < least || width < base; step += 1) {
    width = step % 3 === 1 ? (width * 5) / 2 : width * 2;
  }
  return width;
}

/**
 * The stretches of slots side by side, of a width, that have more pieces each than a limit.
 * @param {Map<number, number>} slots
 * @param {number} width
 * @param {number} limit
 */
function joined(slots, width, limit) {
  const full = [...slots].filter(([, count]) => count > limit).sort((one, other) => one[0] - other[0]);
  /** @type {{ begin: number, length: number, pieces: number }[]} */
  const found = [];
  for (const [slot, pieces] of full) {
    const begin = slot * width;
    const before = found[found.length - 1];
    if (before !== undefined && before.begin + before.length === begin) {
      before.length += width;
      before.pieces += pieces;
    } else {
      found.push({ begin, length: width, pieces });
    }
  }
  return found;
}

/**
 * The stretches of time that clearly have more damage than the mean; the time is cut into so many slots or fewer.
 *
 * Slots side by side that have more than twice the mean are one stretch. So much of it as would lie there if all were
 * spread evenly is to be less than half, by two and a half standard deviations.
 * @param {import("./bus.js").Bus} bus
 * @param {number} many
 */
function stretchesOf(bus, many) {
  const length = Math.floor(((bus.past - bus.first) * 1000) / bus.rate);
  const width = roundMilliseconds(Math.ceil(length / many), bus.slots.milliseconds);
  const slots = bus.slots.merged(width / bus.slots.milliseconds);
  const mean = (bus.damaged * width) / Math.max(length, width);
  return joined(slots, width, 2 * mean).filter((stretch) => {
    const even = (mean * stretch.length) / width;
    return stretch.pieces >= Math.max(FEWEST_PIECES, 2 * even + 2.5 * Math.sqrt(even));
  });
}

/**
 * The stretches with most damage, found with the finest slots that show any.
 * @param {import("./bus.js").Bus} bus
 */
function stretches(bus) {
  for (const many of SLOTS) {
    const found = stretchesOf(bus, many).sort((one, other) => other.pieces - one.pieces);
    if (found.length > 0) return found.slice(0, SHOWN_STRETCHES);
  }
  return [];
}

/**
 * A stretch as it is told.
 * @param {{ begin: number, length: number, pieces: number }} stretch
 * @param {import("./bus.js").Bus} bus
 */
function toldStretch({ begin, length, pieces }, { dayTime, damaged, first, rate }) {
  const past = begin + length;
  const inSeconds = `${(begin / 1000).toFixed(3)} to ${(past / 1000).toFixed(3)} s`;
  const times = dayTime && [begin, past].map((time) => dayTime.of(time / 1000, first / rate));
  const text = times === null ? inSeconds : times.join(" to ");
  return { begin, past, text, pieces, share: (100 * pieces) / damaged };
}

/**
 * The damage by its cause, what is to be said of where it lies, and the stretches that have most of it. All are empty
 * where nothing is damaged.
 * @param {import("./bus.js").Bus} bus
 * @returns {{sentence: string, where: string, stretches: Stretch[]}}
 */
export function damageOf(bus) {
  if (bus.damaged === 0) return { sentence: "", where: "", stretches: [] };
  const found = stretches(bus).map((stretch) => toldStretch(stretch, bus));
  const spread = bus.damaged >= FEWEST_PIECES ? "It is spread over the time." : "";
  return {
    sentence: `Damage by cause: ${piecesNamed(bus.damage.sorts)}.`,
    where: found.length > 0 ? "Most of it lies here:" : spread,
    stretches: found,
  };
}
