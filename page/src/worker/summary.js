import { isUnfit } from "../../../scripts/modules/listing/kinds.js";

/** @typedef {import("../../../scripts/modules/recording/doubts.js").Warning} Warning */
/** @typedef {import("../../../scripts/modules/statistics/bus.js").Bus} Bus */

/** @typedef {Record<"gap"|"missing"|"late"|"spoilt"|"damage", number>} Counts that the verdict shows */

/**
 * The times to answers of a kind of commands, in bits, each with how often it came.
 * @typedef {{ name: string, inTime: [number, number][], late: [number, number][] }} Times
 */

/**
 * What is known of a file that was read.
 *
 * @typedef {object} Summary
 * @property {number} count of lines of the listing
 * @property {number} frames
 * @property {number} damaged
 * @property {number} beside damaged pieces where the recording lacks samples, which are not counted there
 * @property {boolean} isOfTwo whether the bus has two lines
 * @property {Warning[]} warnings
 * @property {number} first the place where the file begins, and the one just after its end
 * @property {number} past
 * @property {boolean} hasBits
 * @property {import("../../../scripts/modules/findings/findings.js").Finding[]} findings
 * @property {number[]} stations
 * @property {import("../../../scripts/modules/statistics/verdict.js").Verdict} verdict
 * @property {Counts} counts
 * @property {ReturnType<typeof import("../../../scripts/modules/statistics/table.js").tableOf>} table
 * @property {ReturnType<typeof import("../../../scripts/modules/statistics/damage.js").damageOf>} damage
 * @property {Times[]} replies
 * @property {number} lacking seconds of the recording in which the first clock stood still, and so gave no places
 * @property {string|null} draft the dictionary by which bits were judged, where none was given
 * @property {string|null} fault at which reading stopped
 * @property {string[]} notes on a recording, its warnings among them
 */

/** Warnings of a clock that stood still. */
const STANDS = new Set(["gap", "end", "still"]);

/**
 * For how many seconds of a recording the first clock stood still: by so much times after it are too early.
 * @param {Warning[]} warnings
 * @param {{ recorded: number|null, bits: { length: number }|null, rate: number }} known
 */
export function clocklessOf(warnings, { recorded, bits, rate }) {
  const found = warnings.filter(({ sort }) => STANDS.has(sort));
  if (found.length === 0) return 0;
  if (recorded !== null && bits !== null) return Math.max(0, recorded - bits.length / rate);
  return found.reduce((sum, { stood = 0 }) => sum + stood, 0);
}

/**
 * What is sent to each station, by the names that the dictionary gives.
 * @param {Bus} bus
 */
export function namesOf(bus) {
  /** @type {Map<number, string>} */
  const names = new Map();
  for (const [{ station, type }, { name }] of bus.commands.sorted()) {
    const own = name && !isUnfit(name) ? name : `type ${type}`;
    names.set(station, names.has(station) ? `${names.get(station)}, ${own}` : own);
  }
  return names;
}

/**
 * The numbers that the verdict shows.
 * @param {Bus} bus
 * @param {number} gap
 * @returns {Counts}
 */
export function countsOf(bus, gap) {
  const counts = { gap, missing: 0, late: 0, spoilt: 0 };
  for (const [, { verdicts }] of bus.commands.sorted()) {
    for (const name of /** @type {const} */ (["missing", "late", "spoilt"])) counts[name] += verdicts[name];
  }
  return { ...counts, damage: bus.damaged };
}

/**
 * The times to answers of each kind of commands, as pairs of a time and how often it came.
 * @param {ReturnType<typeof import("../../../scripts/modules/statistics/replies.js").repliesOf>} replies
 * @returns {Times[]}
 */
export function timesOf({ kinds }) {
  return kinds.map(({ kind, name, inTime, late }) => ({
    name: `station ${kind.station} type ${kind.type}${name ? ` ${name}` : ""}`,
    inTime: [...inTime.counts],
    late: [...late.counts],
  }));
}
