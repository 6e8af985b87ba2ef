/**
 * A gap is the time from a command to the next one of its kind. One that is longer than so many times the usual gap is
 * told. It is grave, a fault for the summary and an incident for a watch, where it is longer than three times the usual
 * one by so many seconds: a command that is left out now and then puts no cabinet into flash.
 */
export const FAR = 1.5;
const GRAVE = 3;
const GRAVE_SECONDS = 0.05;

/** The fewest gaps of which one is called usual. */
const FEWEST_GAPS = 3;

/** @typedef {import("./commands.js").Moment} Moment */

/**
 * The time from one moment to another: places, and what was seen within.
 * @typedef {{first: number, length: number, damage: import("./pieces.js").Pieces[], frames: number}} Gap
 */

/**
 * A time without a command of a kind that is told.
 * @typedef {object} Hole
 * @property {import("./kinds.js").Kind} kind
 * @property {import("./commands.js").Commands} commands
 * @property {Gap} gap
 * @property {number} usual the usual gap
 * @property {number} limit gaps above this one are reported
 * @property {number} times how many times the usual gap it is
 * @property {number} lacking how many commands are lacking
 * @property {""|"begin"|"end"} where it is: between two commands, or at an end of the listing
 * @property {number} others gaps of this kind that are as far from the usual one
 * @property {boolean} isGrave
 * @property {boolean} isQuiet whether a rest of all commands explains it, and the others
 */

/**
 * The usual gap, which is the median; 0 where there are too few gaps to tell.
 * @param {import("./commands.js").Commands} commands
 * @returns {number}
 */
export const usualGap = (commands) => (commands.gaps.total >= FEWEST_GAPS ? commands.gaps.quantile(50) : 0);

/**
 * The longest gap that is not grave.
 * @param {number} usual
 * @param {number} rate
 */
export const graveGap = (usual, rate) => GRAVE * usual + GRAVE_SECONDS * rate;

/**
 * The gap above which one is told. Where many are longer than usual, they are no fault, but how the bus is.
 * @param {import("./histogram.js").Histogram} gaps
 * @param {number} usual
 */
function farGap(gaps, usual) {
  const limit = FAR * usual;
  const many = gaps.above(limit);
  return many > 1 && many * 5 > gaps.total ? FAR * gaps.quantile(90) : limit;
}

/**
 * What lies between two moments. A frame that begins at one of them is not within.
 * @param {Moment} from
 * @param {Moment} to
 * @param {import("./pieces.js").Tally} tally
 * @returns {Gap}
 */
function gapBetween(from, to, tally) {
  const damage = tally.between(from.damage, to.damage);
  return { first: from.place, length: to.place - from.place, damage, frames: to.framesBefore - from.framesAfter };
}

/**
 * The longest gap of a kind, also of those that a rest of all commands explains, and the times before its first and after its last command, where they are told.
 * @param {import("./kinds.js").Kind} kind
 * @param {import("./commands.js").Commands} commands
 * @param {import("./bus.js").Bus} bus
 * @returns {Hole[]}
 */
function holesOf(kind, commands, bus) {
  const usual = usualGap(commands);
  const { gaps, quiets, first, last, longest, longestQuiet } = commands;
  if (usual === 0 || first === null || last === null) return [];
  const limit = farGap(gaps, usual);
  const begin = { place: bus.first, damage: [], framesBefore: 0, framesAfter: 0 };
  const quiet = quiets.above(limit);
  const [own, ofRests] = [gaps.above(limit) - quiet, quiet].map((count) => Math.max(0, count - 1));
  /** @typedef {{ from: Moment, to: Moment, where: ""|"begin"|"end", others: number, isQuiet: boolean }} Candidate */
  const candidates = /** @type {Candidate[]} */ ([
    ...(longest ? [{ ...longest, where: "", others: own, isQuiet: false }] : []),
    ...(longestQuiet ? [{ ...longestQuiet, where: "", others: ofRests, isQuiet: true }] : []),
    { from: begin, to: first, where: "begin", others: 0, isQuiet: false },
    { from: last, to: bus.moment(bus.past, 0), where: "end", others: 0, isQuiet: false },
  ]);
  const isFar = (/** @type {number} */ from, /** @type {number} */ to) => to - from > limit && !bus.beside.isNear(from, to);
  const far = candidates.filter(({ from, to }) => isFar(from.place, to.place));
  return far.map(({ from, to, where, others, isQuiet }) => {
    const gap = gapBetween(from, to, bus.damage);
    const times = gap.length / usual;
    const isGrave = gap.length > graveGap(usual, bus.rate);
    const lacking = Math.round(times) - 1;
    return { kind, commands, gap, usual, limit, times, lacking, where, others, isGrave, isQuiet };
  });
}

/**
 * All times without a command that are told, the longest against the usual one first.
 * @param {import("./bus.js").Bus} bus
 * @returns {Hole[]}
 */
export function holes(bus) {
  const found = bus.commands.sorted().flatMap(([kind, commands]) => holesOf(kind, commands, bus));
  return found.sort((one, other) => other.times - one.times);
}
