import { DAMAGES, FRAME, KINDS } from "../listing/kinds.js";
import { Rests } from "../statistics/rests.js";

/** The most places of a sentence that are kept. */
const MOST_PLACES = 200;

/** @typedef {import("../listing/listing.js").Listing} Listing */
/** @typedef {import("../statistics/gaps.js").Hole} Hole */
/** @typedef {import("../statistics/rests.js").Place} Place */

/**
 * A kind of commands as a number.
 * @param {import("../statistics/kinds.js").Kind} kind
 */
const keyOf = ({ station, type }) => 256 * station + type;

/** The lines that a sentence is about: how many, and where the first of them are. */
export class Rows {
  /**
   * @param {Listing} listing
   * @param {number[]} kinds
   * @param {(at: number) => boolean} [agrees] whether a line of these kinds is one
   */
  constructor(listing, kinds, agrees = () => true) {
    this.listing = listing;
    this.kinds = kinds;
    this.agrees = agrees;
    this.count = 0;
    /** @type {Place[]} */
    this.places = [];
  }

  /** @param {number} at */
  take(at) {
    if (!this.agrees(at)) return;
    this.count += 1;
    const { firsts, pasts } = this.listing;
    if (this.places.length < MOST_PLACES) this.places.push({ row: at, first: firsts[at], past: pasts[at] });
  }
}

/**
 * A kind of commands with its gaps, those apart that a rest of all commands explains.
 * @typedef {object} Seen
 * @property {number} limit
 * @property {number} before the row of the last command
 * @property {number} rested the longest rest of all commands since then
 * @property {{ own: Place[], quiet: Place[] }} found
 * @property {Map<number, number>} rows by the places where holes begin
 */

/** The times between commands of some kinds that are longer than the limit of each. */
export class Gaps {
  /** @param {Listing} listing @param {Hole[]} holes @param {import("../statistics/bus.js").Bus} bus */
  constructor(listing, holes, { beside, rate }) {
    this.listing = listing;
    this.beside = beside;
    this.rests = new Rests(rate, beside);
    this.kinds = [FRAME, ...DAMAGES];
    /** @type {Map<number, Seen>} */
    this.byKind = new Map();
    for (const { kind, limit, gap } of holes) {
      const fresh = { limit, before: -1, rested: 0, found: { own: [], quiet: [] }, rows: new Map() };
      const own = this.byKind.get(keyOf(kind)) ?? fresh;
      own.rows.set(gap.first, -1);
      this.byKind.set(keyOf(kind), own);
    }
  }

  /** @param {number} at */
  take(at) {
    const { firsts, pasts, lines, stations, types, kinds } = this.listing;
    const line = /** @type {1|2|null} */ (lines[at] || null);
    const rest = this.rests.take({ kind: KINDS[kinds[at]], first: firsts[at], past: pasts[at], line }, at);
    if (rest > 0) this.byKind.forEach((one) => (one.rested = Math.max(one.rested, rest)));
    if (kinds[at] !== FRAME || types[at] < 0 || line === 2) return;
    const own = this.byKind.get(256 * stations[at] + types[at]);
    if (own === undefined) return;
    if (own.rows.has(firsts[at])) own.rows.set(firsts[at], at);
    this.end(own, at);
    [own.before, own.rested] = [at, 0];
  }

  /**
   * Ends the gap of a kind.
   * @param {Seen} own
   * @param {number} at the row of its next command
   */
  end({ limit, before, rested, found }, at) {
    const { firsts } = this.listing;
    const length = before < 0 ? 0 : firsts[at] - firsts[before];
    const places = 2 * rested >= length ? found.quiet : found.own;
    if (length <= limit || places.length >= MOST_PLACES || this.beside.isNear(firsts[before], firsts[at])) return;
    places.push({ row: before, first: firsts[before], past: firsts[at] });
  }

  /**
   * The gaps of a hole's kind that are like it, itself among them, or it alone at an end of the listing.
   * @param {Hole} hole
   * @returns {Place[]}
   */
  placesOf({ kind, gap, where, isQuiet }) {
    const { found, rows } = this.byKind.get(keyOf(kind)) ?? { found: { own: [], quiet: [] }, rows: new Map() };
    const own = { row: rows.get(gap.first) ?? -1, first: gap.first, past: gap.first + gap.length };
    if (where !== "") return [own];
    return [own, ...(isQuiet ? found.quiet : found.own).filter(({ first }) => first !== own.first)];
  }
}
