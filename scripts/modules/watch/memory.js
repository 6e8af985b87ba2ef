import { existsSync, readFileSync } from "node:fs";
import { RATE } from "../port1.js";
import { DISK } from "./disk.js";

/**
 * What a watch knows that outlives it.
 * @typedef {object} Kept
 * @property {number} run
 * @property {boolean} isOver whether all that came was judged
 * @property {number|null} wall when it was written, in seconds since 1970
 * @property {number} zero when place 0 was, by the last place
 * @property {{ place: number, zero: number }[]} [zeros] the same up to places before which input was lost
 * @property {ReturnType<import("./triggers.js").Triggers["kept"]>} triggers
 * @property {Omit<ReturnType<import("./incidents.js").Incidents["kept"]>, "ahead"|"seams">
 *   & { ahead?: import("./incidents.js").Event[], seams?: number[] }} incidents
 */

const NOTHING = {
  ...{ run: 0, isOver: true, wall: null, zero: 0 },
  triggers: { kinds: {}, pieces: [], lastHeard: null, isAtRest: false, judged: null },
  incidents: { open: null, waiting: [], long: [], before: [], count: 0 },
};

/** @param {any} value */
const isObject = (value) => typeof value === "object" && value !== null && !Array.isArray(value);

/** The greatest numbers that a watch writes: of seconds since 1970, and of places. What is greater is no date. */
const [MOST_SECONDS, MOST_PLACES] = [2 ** 40, 2 ** 50];

/** @param {any} value */
const isTime = (value) => typeof value === "number" && Math.abs(value) <= MOST_SECONDS;

/** @param {any} value */
const isPlace = (value) => typeof value === "number" && Math.abs(value) <= MOST_PLACES;

/**
 * Whether a value is the number of a run.
 * @param {any} value
 */
export const isRun = (value) => Number.isInteger(value) && value >= 0 && isPlace(value);

/** @param {(value: any) => boolean} is @returns {(value: any) => boolean} */
const orNull = (is) => (value) => value === null || is(value);

/** @param {any} values @param {(value: any) => boolean} is */
const areAll = (values, is) => Array.isArray(values) && values.every(is);

/** @param {any} value */
const isIncident = (value) =>
  isObject(value) && typeof value.id === "string" && typeof value.cut === "boolean" && isObject(value.causes) &&
  [value.run, value.first, value.past, ...Object.values(value.causes)].every(isPlace) && isTime(value.zero) &&
  Object.keys(value.causes).length > 0;

/** @param {any} value */
const isKind = (value) =>
  isObject(value) && [value.usual, value.bad, value.badFrom].every(isPlace) && orNull(isPlace)(value.last) &&
  orNull(isTime)(value.since) && [value.isBad, value.isGone].every((is) => typeof is === "boolean");

/** @param {any} value */
const isMark = (value) => isObject(value) && isPlace(value.past);

/** @param {any} value */
const areTriggers = (value) =>
  isObject(value) && isObject(value.kinds) && Object.values(value.kinds).every(isKind) &&
  orNull(isPlace)(value.lastHeard) && areAll(value.pieces, isPlace) && orNull(isMark)(value.judged);

/** @param {any} value */
const isLong = (value) =>
  Array.isArray(value) && typeof value[0] === "string" && isObject(value[1]) &&
  [value[1].first, value[1].past, value[1].count].every(isPlace);

/** @param {any} value */
const isEvent = (value) =>
  isObject(value) && [value.first, value.past].every(isPlace) && orNull(isTime)(value.since ?? null);

/** @param {any} value */
const areIncidents = (value) =>
  isObject(value) && isPlace(value.count) && orNull(isIncident)(value.open) &&
  areAll(value.waiting, isIncident) && areAll(value.before, isIncident) && areAll(value.long, isLong) &&
  (value.ahead === undefined || areAll(value.ahead, isEvent)) &&
  (value.seams === undefined || areAll(value.seams, isPlace));

/** @param {any} value */
const isStep = (value) => isObject(value) && isPlace(value.place) && isTime(value.zero);

/** @param {any} value */
const isKept = (value) =>
  isObject(value) && isRun(value.run) && typeof value.isOver === "boolean" &&
  orNull(isTime)(value.wall) && isTime(value.zero) && (value.zeros === undefined || areAll(value.zeros, isStep)) &&
  areTriggers(value.triggers) && areIncidents(value.incidents);

/**
 * What a text keeps, if it is what a watch wrote.
 * @param {string} text
 * @returns {Kept|null}
 */
function keptOf(text) {
  try {
    const kept = JSON.parse(text);
    return isKept(kept) ? kept : null;
  } catch {
    return null;
  }
}

/**
 * What the run before knew. A file that says nothing is set aside, and told.
 * @param {string} path
 * @param {(text: string) => void} warn
 * @param {import("./disk.js").Disk} [disk]
 * @returns {Kept}
 */
export function read(path, warn, disk = DISK) {
  if (!existsSync(path)) return NOTHING;
  const kept = keptOf(readFileSync(path, "utf8"));
  if (kept) return kept;
  disk.rename(path, `${path}.bad`);
  warn(`the state: ${path} is not what a watch writes, and is now ${path}.bad`);
  return NOTHING;
}

/**
 * The incidents that a run did not tell, by what it kept and what the log has.
 * @param {Pick<Kept["incidents"], "open"|"waiting">} kept
 * @param {{ id: string }[]} told
 */
export function untold({ open, waiting }, told) {
  const ids = new Set(told.map(({ id }) => id));
  const cut = open === null ? [] : [{ ...open, cut: true }];
  return [...waiting, ...cut].filter(({ id }) => !ids.has(id));
}

/**
 * The incidents that the log has begun and not told, and of which nothing else is known.
 * @param {(import("./journal.js").JournalEntry & { id: string, cause?: unknown })[]} entries
 * @param {{ id: string }[]} known
 * @returns {import("./incidents.js").Incident[]}
 */
export function onlyBegun(entries, known) {
  const told = new Set([...known, ...entries.filter(({ event }) => event === "incident")].map(({ id }) => id));
  const isWhole = (/** @type {{ id: string } & import("./journal.js").JournalEntry} */ { id, wall, run, place }) =>
    typeof id === "string" && !Number.isNaN(Date.parse(wall)) && isRun(run) && isPlace(place);
  const begun = entries.filter((entry) => entry.event === "begun" && isWhole(entry) && !told.has(entry.id));
  return begun.map(({ id, run, place, wall, cause }) => ({
    ...{ id, run, first: place, past: place, causes: { [String(cause)]: 1 } },
    ...{ zero: Date.parse(wall) / 1000 - place / RATE, cut: true },
  }));
}
