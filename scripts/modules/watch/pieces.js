/** Pieces of bits with the places where they stand, and the holes between them. */

import { octetsBefore } from "./forms.js";

/**
 * Packed bits, and the place where they begin.
 * @typedef {{ octets: Buffer, place: number }} Bits
 */

/**
 * The same without a hole in them, and the place after them.
 * @typedef {Bits & { past: number }} Piece
 */

/** @typedef {{ first: number, past: number }} Hole places of which there are no bits */

/**
 * Joins what stands behind one another; what does not is a piece of its own.
 * @param {import("./forms.js").Form} form
 * @param {Bits[]} all by their places
 * @returns {Piece[]}
 */
export function joined(form, all) {
  /** @type {{ parts: Buffer[], place: number, past: number }[]} */
  const pieces = [];
  for (const { octets, place } of all) {
    if (pieces.length === 0 || pieces[pieces.length - 1].past !== place) pieces.push({ parts: [], place, past: place });
    const last = pieces[pieces.length - 1];
    last.parts.push(octets);
    last.past += octetsBefore(form, octets, Infinity).passed;
  }
  return pieces.map(({ parts, place, past }) => ({ octets: Buffer.concat(parts), place, past }));
}

/**
 * What of a piece stands between two places.
 * @param {import("./forms.js").Form} form
 * @param {Piece} piece
 * @param {number} first
 * @param {number} past
 * @returns {Piece}
 */
export function between(form, { octets, place }, first, past) {
  const from = octetsBefore(form, octets, Math.max(0, first - place));
  const to = octetsBefore(form, octets, Math.max(0, past - place));
  return { octets: octets.subarray(from.at, to.at), place: place + from.passed, past: place + to.passed };
}

/**
 * The holes between two places. An octet that only a part of is wanted makes none.
 * @param {Piece[]} pieces
 * @param {number} first
 * @param {number} past
 * @returns {Hole[]}
 */
export function holesOf(pieces, first, past) {
  const begins = [first, ...pieces.map((piece) => piece.past)];
  const ends = [...pieces.map(({ place }) => place), past];
  return begins.map((begin, at) => ({ first: begin, past: ends[at] })).filter((hole) => hole.past - hole.first > 4);
}

/**
 * The piece that has most of some places; of several that have none, the one that is nearest to them.
 * @param {Piece[]} pieces
 * @param {number} first
 * @param {number} past
 */
export function nearestOf(pieces, first, past) {
  /** @param {Piece} piece */
  const shared = (piece) => Math.min(past, piece.past) - Math.max(first, piece.place);
  return pieces.reduce((best, piece) => (shared(piece) > shared(best) ? piece : best));
}
