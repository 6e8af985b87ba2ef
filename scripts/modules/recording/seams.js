/**
 * Where a recording is not what was on the wires, which is the fault of the analyser or of the file, and not of the bus:
 * samples that are lacking, or that are not those that were recorded.
 *
 * @typedef {object} Seam
 * @property {"samples"|"piece"|"checksum"|"rounded"|"coarse"|"stops"} sort
 * @property {string} name of what shows it: the clock, or a part of the file
 * @property {number} from where it is first, in samples
 * @property {number} count how often
 * @property {Stretch[]} stretches what is not to be blamed on the bus
 * @property {number} [samples] in which the clock stood still, and the place of its longest stop
 * @property {number} [place]
 */

/**
 * Bits of the first line by their places, the last of them among it; Infinity where a stretch has no end.
 * @typedef {{ first: number, past: number }} Stretch
 */

/** All of a recording. */
export const WHOLE = Object.freeze({ first: 0, past: Infinity });

/** The sorts of warnings of which nothing that a recording shows is sure. */
export const UNSURE = new Set(["slow", "rounded"]);

/** @param {number} place */
const at = (place) => ({ first: place, past: place });

/** A loss is known to so many bits. */
const KNOWN = 256;

/**
 * The losses that no fault of the file tells, as one.
 * @param {import("./losses.js").Losses} losses
 * @param {Seam[]} faults
 * @param {string} name of the clock
 * @returns {Seam[]}
 */
function lostOf({ count, kept, last }, faults, name) {
  const places = faults.flatMap(({ stretches }) => stretches);
  const isTold = ({ place = 0 }) => places.some(({ first, past }) => place > first - KNOWN && place < past + KNOWN);
  const own = kept.filter((loss) => !isTold(loss));
  if (own.length === 0 || last === null) return [];
  const isMany = count > kept.length;
  // Where there are too many to name each, it is from the first to the last.
  const stretches = isMany ? [{ first: own[0].place, past: last.place }] : own.map(({ place }) => at(place));
  return [{ sort: "samples", name, from: own[0].sample, count: count - kept.length + own.length, stretches }];
}

/**
 * All that is lacking or wrong in a recording.
 * @param {Seam[]} faults of its file, in samples
 * @param {import("./losses.js").Losses} losses
 * @param {string} name of the clock
 * @returns {Seam[]}
 */
export function seamsOf(faults, losses, name) {
  const { bits, samples, isCoarse, stops } = losses;
  // The clock runs all the time, so that its bits are as far as the samples are.
  const placeOf = (/** @type {number} */ sample) => Math.round((bits * sample) / Math.max(1, samples));
  const placed = faults.map((fault) => ({
    ...fault,
    stretches: fault.stretches.map(({ first, past }) => ({ first: placeOf(first), past: placeOf(past) })),
  }));
  const coarse = { sort: /** @type {const} */ ("coarse"), name, from: 0, count: 1, stretches: [WHOLE] };
  const stopped = { sort: /** @type {const} */ ("stops"), name, from: 0, ...stops, stretches: [] };
  const ofClock = [...(isCoarse ? [coarse] : []), ...(stops.count > 0 ? [stopped] : [])];
  return [...placed, ...ofClock, ...lostOf(losses, placed, name)];
}

/** @param {Stretch} stretch */
const isOfOne = ({ first, past }) => first === past;

/**
 * Places as a warning has them.
 * @param {Stretch[]} stretches
 */
export function placesOf(stretches) {
  if (!stretches.every(isOfOne)) return stretches.map(({ first, past }) => `places ${first} to ${past}`).join(", ");
  const places = stretches.map(({ first }) => first).join(", ");
  return `${stretches.length === 1 ? "place" : "places"} ${places}`;
}

/**
 * What a warning has as places.
 * @param {string} text
 * @returns {Stretch[]}
 */
export function stretchesIn(text) {
  return [...text.matchAll(/(\d+)(?: to (\d+))?/g)].map(([, first, past = first]) => ({
    ...{ first: Number(first), past: Number(past) },
  }));
}

/**
 * What is not to be blamed on the bus.
 * @param {import("./doubts.js").Warning[]} warnings
 * @returns {Stretch[]}
 */
export const unsureOf = (warnings) =>
  warnings.flatMap(({ sort, stretches = [] }) => (UNSURE.has(sort) ? [WHOLE] : stretches));
