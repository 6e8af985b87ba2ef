import { Fault } from "../fault.js";
import { BUS, KIND, whereOf } from "./limits.js";

/** @typedef {import("../statistics/kinds.js").Kind} Kind */
/** @typedef {import("./limits.js").Statistics} Statistics */
/** @typedef {import("./limits.js").KindStatistics} KindStatistics */
/** @typedef {import("./limits.js").Limits["kinds"][number]} Table of limits of commands */
/** @typedef {Pick<Judgement, "where"|"key"|"value">} Open what is wrong, and no limit judges */

/**
 * A limit, what was seen (null: nothing to judge), and whether the limit is kept.
 * @typedef {{ where: string, key: string, value: number|null, limit: number, isKept: boolean }} Judgement
 */

/**
 * What got worse: what is seen now (null: nothing any more), and what was before.
 * @typedef {{ where: string, key: string, value: number|null, was: number }} Worse
 */

/**
 * A unit with all that is judged of it, or with the fault for which nothing is.
 * @typedef {object} Unit
 * @property {string} name
 * @property {{ file: string, sha256?: string }} source
 * @property {Statistics} [statistics]
 * @property {Judgement[]} judgements
 * @property {Open[]} [open] what is wrong, and no limit judges
 * @property {Worse[]} worse
 * @property {string} [fault]
 */

/** What statistics say of a kind of which no command was seen. */
const NONE = /** @type {KindStatistics} */ (
  { sent: 0, decided: 0, name: "", replyMs: { percent99: null, longest: null }, gapMs: { longest: null } }
);

/** @param {string} key @returns {import("./limits.js").Measure<Statistics|KindStatistics>} */
export const measureOf = (key) => KIND[key] ?? BUS[key];

/**
 * @param {string} where
 * @param {{ key: string, limit: number }} limit
 * @param {Statistics|KindStatistics} seen
 * @returns {Judgement}
 */
function judged(where, { key, limit }, seen) {
  const { of, isLeast } = measureOf(key);
  const value = of(seen);
  return { where, key, value, limit, isKept: value !== null && (isLeast ? value >= limit : value <= limit) };
}

/** @param {Statistics} statistics @param {Kind} kind */
const kindIn = (statistics, { station, type }) =>
  statistics.kinds.find((kind) => kind.station === station && kind.type === type) ?? NONE;

/**
 * A station and type, with the name that the dictionary gives it.
 * @param {Kind} kind
 * @param {{ name: string }} seen
 */
const named = (kind, { name }) => `${whereOf(kind)}${name ? ` ${name}` : ""}`;

/**
 * How much a table says of its commands: 2 where it is of one kind alone.
 * @param {Table} table
 */
const exactness = ({ station, type }) => Number(station !== null) + Number(type !== null);

/** @param {Table} table @param {Kind} kind */
const fits = ({ station, type }, kind) =>
  (station === null || station === kind.station) && (type === null || type === kind.type);

/**
 * Holds the commands that came to a table of each of some; a table that says more of them stands in its place. Where
 * there is nothing to judge of any, the limit is not kept.
 * @param {Table} table
 * @param {Table[]} all
 * @param {Statistics} statistics
 */
function judgedEach(table, all, { kinds }) {
  return table.limits.flatMap((limit) => {
    const { of } = measureOf(limit.key);
    const isOther = (/** @type {Table} */ other) =>
      exactness(other) > exactness(table) && other.limits.some(({ key }) => key === limit.key);
    const own = kinds.filter((kind) => fits(table, kind) && !all.some((other) => isOther(other) && fits(other, kind)));
    const seen = own.filter((kind) => of(kind) !== null).map((kind) => judged(named(kind, kind), limit, kind));
    return seen.length > 0 ? seen : [judged(whereOf(table), limit, NONE)];
  });
}

/**
 * What is wrong, and no limit judges.
 * @param {Judgement[]} judgements
 * @param {Statistics} statistics
 * @returns {Open[]}
 */
function openOf(judgements, statistics) {
  /** @param {string} where @param {Statistics|KindStatistics} seen @param {string[]} keys @param {string} share */
  const open = (where, seen, keys, share) =>
    keys.flatMap((key) => {
      const value = measureOf(key).of(seen);
      const isJudged = judgements.some((one) => one.where === where && [key, share].includes(one.key));
      return value === null || value === 0 || isJudged ? [] : [{ where, key, value }];
    });
  const ofBus = [...open("bus", statistics, ["damaged"], "damaged_percent"), ...open("bus", statistics, ["strays", "pending"], "")];
  const ofKind = (/** @type {KindStatistics} */ kind) =>
    open(named(kind, kind), kind, ["missing", "late", "spoilt"], "bad_percent");
  return [...ofBus, ...statistics.kinds.flatMap(ofKind)];
}

/**
 * Holds statistics to limits. Where there is nothing to judge at all, that is a fault.
 * @param {import("./limits.js").Limits} limits
 * @param {Statistics} statistics
 * @returns {{ judgements: Judgement[], open: Open[] }}
 */
export function judge(limits, statistics) {
  if (statistics.frames === 0) throw new Fault("there is no frame: nothing to judge");
  const all = [...limits.bus, ...limits.kinds.flatMap((kind) => kind.limits)];
  const isJudging = all.some(({ key }) => measureOf(key).isJudged);
  if (isJudging && !statistics.hasDictionary) {
    throw new Fault("the listing was made without a dictionary: no answer can be judged");
  }
  const bus = limits.bus.map((limit) => judged("bus", limit, statistics));
  const kinds = limits.kinds.flatMap((table) => {
    const { station, type } = table;
    if (station === null || type === null) return judgedEach(table, limits.kinds, statistics);
    const seen = kindIn(statistics, { station, type });
    return table.limits.map((limit) => judged(named({ station, type }, seen), limit, seen));
  });
  const judgements = [...bus, ...kinds];
  return { judgements, open: openOf(judgements, statistics) };
}

/** Room for the rounding of what is compared. */
const EXACT = 1 + 1e-9;

/** What is compared with an earlier run. */
const COMPARED = ["bad_percent", "reply_99_ms", "reply_longest_ms", "gap_ms"];

/**
 * The measures of one place that are worse than before by more than a tolerance in percent.
 * @param {string} where
 * @param {string[]} keys
 * @param {Statistics|KindStatistics} now
 * @param {Statistics|KindStatistics} before
 * @param {number} within
 * @returns {Worse[]}
 */
function worseAt(where, keys, now, before, within) {
  return keys.flatMap((key) => {
    const [value, was] = [measureOf(key).of(now), measureOf(key).of(before)];
    const isWorse = was !== null && (value === null || value * 100 > was * (100 + within) * EXACT);
    return isWorse ? [{ where, key, value, was }] : [];
  });
}

/**
 * What got worse since an earlier run, by more than a tolerance in percent.
 * @param {Statistics} before
 * @param {Statistics} now
 * @param {number} within
 */
export function worseThan(before, now, within) {
  const kinds = before.kinds.flatMap((kind) => {
    return worseAt(named(kind, kind), COMPARED, kindIn(now, kind), kind, within);
  });
  return [...worseAt("bus", ["damaged_percent"], now, before, within), ...kinds];
}
