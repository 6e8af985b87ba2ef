import { KINDS } from "../listing/kinds.js";

/**
 * What looks for lines of some kinds.
 * @typedef {{ kinds: number[], take: (at: number) => void }} Seeker
 */

/**
 * Goes once through a listing, and hands each line to those that look for its kind.
 * @param {import("../listing/listing.js").Listing} listing
 * @param {Seeker[]} seekers
 */
export function survey(listing, seekers) {
  const byKind = KINDS.map((_, kind) => seekers.filter(({ kinds }) => kinds.includes(kind)));
  for (let at = 0; at < listing.length; at++) {
    for (const seeker of byKind[listing.kinds[at]]) seeker.take(at);
  }
}
