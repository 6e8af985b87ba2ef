import { DAMAGES, FRAME } from "../listing/kinds.js";
import { FINDINGS } from "../statistics/findings.js";
import { causeOf } from "../watch/words.js";

/** @typedef {import("../listing/listing.js").Listing} Listing */
/** @typedef {import("../statistics/rests.js").Place} Place */
/** @typedef {{ station: number, type: number }} Kind of commands */
/** @typedef {{ first: number, past: number }} Stretch */

/**
 * Times between lines of a listing: which lines these are, and whether the time is counted from their end.
 * @typedef {{ isOne: (listing: Listing, at: number, kind: Kind) => boolean, isFromEnd: boolean }} Between
 */

const PIECES = new Set([FRAME, ...DAMAGES]);

/** @type {Record<string, Between|undefined>} */
const BETWEEN = {
  gap: {
    isOne: ({ kinds, lines, stations, types }, at, { station, type }) =>
      kinds[at] === FRAME && lines[at] !== 2 && stations[at] === station && types[at] === type,
    isFromEnd: false,
  },
  rest: { isOne: ({ kinds }, at) => PIECES.has(kinds[at]), isFromEnd: true },
};

/**
 * Where a cause of an incident is, null where the listing does not show it.
 *
 * Over the finished listing it is, of a gap or a rest, the longest time without such lines that overlaps the incident.
 * Of other causes it reaches from the first of their lines that begins within the incident to the end of the last.
 * @param {Listing} listing
 * @param {string} text the cause, as the incident's record names it
 * @param {Stretch} incident its places in the listing
 * @returns {Place|null}
 */
export function placeOfCause(listing, text, incident) {
  const { sort, station, type } = causeOf(text);
  const kind = { station: Number(station), type: Number(type) };
  const between = BETWEEN[sort];
  if (between) return longestBetween(listing, between, kind, incident);
  const shows = Object.values(FINDINGS).find((finding) => finding.incident?.name === sort)?.shows;
  if (shows === undefined || typeof shows === "string") return null;
  const { kinds, firsts } = listing;
  const agrees = shows.agrees(listing, { sort: "more", text, kind: station === "" ? null : kind });
  const { first, past } = incident;
  return spanOf(listing, (at) => shows.kinds.includes(kinds[at]) && agrees(at) && firsts[at] >= first && firsts[at] < past);
}

/** @param {Listing} listing @param {(at: number) => boolean} isOne @returns {Place|null} */
function spanOf({ firsts, pasts, length }, isOne) {
  /** @type {Place|null} */
  let found = null;
  for (let at = 0; at < length; at++) {
    if (!isOne(at)) continue;
    found = found ?? { row: at, first: firsts[at], past: pasts[at] };
    found.past = Math.max(found.past, pasts[at]);
  }
  return found;
}

/**
 * @param {Listing} listing
 * @param {Between} between
 * @param {Kind} kind
 * @param {Stretch} incident
 * @returns {Place|null}
 */
function longestBetween(listing, { isOne, isFromEnd }, kind, incident) {
  const { firsts, pasts, length } = listing;
  let longest = /** @type {Place|null} */ (null);
  let [row, reached] = [-1, 0]; // of the line before
  /** @param {number} past */
  const end = (past) => {
    const isLonger = longest === null || past - reached > longest.past - longest.first;
    if (row >= 0 && isLonger && past > incident.first && reached < incident.past) longest = { row, first: reached, past };
  };
  for (let at = 0; at < length; at++) {
    if (!isOne(listing, at, kind)) continue;
    end(firsts[at]);
    [row, reached] = [at, isFromEnd ? Math.max(reached, pasts[at]) : firsts[at]];
  }
  end(incident.past); // what does not come again before it
  return longest;
}
