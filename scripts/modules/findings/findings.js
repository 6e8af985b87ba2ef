import { Beside } from "../statistics/beside.js";
import { FINDINGS } from "../statistics/findings.js";
import { lengthOf } from "../statistics/units.js";
import { judgedBus } from "../statistics/wrong.js";
import { Gaps, Rows } from "./seekers.js";
import { survey } from "./survey.js";

/** @typedef {import("../listing/listing.js").Listing} Listing */
/** @typedef {import("../statistics/gaps.js").Hole} Hole */
/** @typedef {import("../statistics/rests.js").Place} Place */
/** @typedef {import("../statistics/wrong.js").Judged} Judged */

/**
 * What is wrong, as the page shows it.
 * @typedef {object} Finding
 * @property {import("../statistics/sentences.js").Sort} sort
 * @property {"fault"|"doubt"} level
 * @property {string} text
 * @property {string} short for the verdict
 * @property {number} count
 * @property {Place[]} places the first of them, in their order
 * @property {import("../statistics/sentences.js").Sentence["kind"]} kind
 * @property {boolean} isStretch whether its places are stretches of time, not lines
 * @property {string} over what is written over its stretches, through all stations; nothing where it has none
 * @property {import("../statistics/findings.js").Sign} sign
 */

/**
 * A stretch of time without a kind of commands.
 * @typedef {{ first: number, past: number, text: string, short: string }} Stretch
 */

/**
 * @param {Judged} sentence
 * @param {{ places: Place[], count: number }} where
 * @param {number} rate
 * @returns {Finding}
 */
function findingOf({ sort, level, text, shown = text, kind = null, isOver = false }, { places, count }, rate) {
  const { short, shows, over, sign } = FINDINGS[sort];
  const facts = /** @type {import("../statistics/findings.js").Facts} */ ({ kind, count, places, rate, isOver });
  const drawn = { isStretch: shows === "stretches", over, sign };
  return { sort, kind, count, places, level, text: shown, ...drawn, short: short(facts) };
}

/**
 * The rows that lie beside what the recording lacks, which are no sentence's.
 * @param {Listing} listing
 * @param {import("../statistics/beside.js").Stretch[]} stretches
 */
function rowsBeside(listing, stretches) {
  /** @type {Set<number>} */
  const found = new Set();
  if (stretches.length === 0) return found;
  const beside = new Beside(stretches);
  let [at, past] = [0, 0];
  for (const row of listing.rows()) {
    past = Math.max(past, row.past);
    if (beside.takes(row, past)) found.add(at);
    at += 1;
  }
  return found;
}

/** @param {number[]} counts */
const sumOf = (counts) => counts.reduce((sum, count) => sum + count, 0);

/**
 * All that is wrong, the most serious first, each with its places; the gaps of each station, and how many there are in
 * all.
 * @param {import("../statistics/bus.js").Bus} bus
 * @param {Listing} listing
 * @param {import("../statistics/wrong.js").Known} known
 */
export function findingsOf(bus, listing, known) {
  const { sentences, gaps: holes } = judgedBus(bus, known);
  const gaps = new Gaps(listing, holes, bus);
  const others = rowsBeside(listing, bus.beside.stretches);
  const rows = sentences.map((sentence) => {
    const { shows } = FINDINGS[sentence.sort];
    if (typeof shows === "string") return new Rows(listing, []);
    const agrees = shows.agrees(listing, sentence);
    return new Rows(listing, shows.kinds, (at) => agrees(at) && !others.has(at));
  });
  survey(listing, [gaps, ...rows]);
  /** @param {Judged} sentence @param {number} at */
  const whereOf = ({ hole, places, count = 0 }, at) => {
    if (hole) return { places: gaps.placesOf(hole), count };
    return places ? { places, count } : rows[at];
  };
  const findings = sentences.map((sentence, at) => findingOf(sentence, whereOf(sentence, at), bus.rate));
  const ofCauses = sentences.filter(({ sort }) => FINDINGS[sort].over !== "");
  return {
    findings,
    gaps: gapsOfStations(holes, gaps, bus.rate),
    gapCount: sumOf(holes.map(({ others }) => 1 + others)) + sumOf(ofCauses.map(({ count = 0 }) => count)),
  };
}

/**
 * The gaps of each station, as stretches with a text.
 * @param {Hole[]} holes
 * @param {Gaps} gaps
 * @param {number} rate
 */
function gapsOfStations(holes, gaps, rate) {
  /** @type {Map<number, Stretch[]>} */
  const found = new Map();
  for (const hole of holes) {
    const { station, type } = hole.kind;
    const own = gaps.placesOf(hole).map(({ first, past }) => {
      const length = lengthOf(past - first, rate);
      return { first, past, text: `no type ${type} for ${length}`, short: length };
    });
    found.set(station, [...(found.get(station) ?? []), ...own]);
  }
  return found;
}
