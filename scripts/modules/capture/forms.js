/**
 * The forms of captures: how a packed one begins, and the marks of a text. The number of a mark is its bits, the first
 * line's lowest; of arrivals, the bit, and above it 1 on the second line. An octet has its first mark lowest.
 */

import { Fault } from "../fault.js";

/** @typedef {1|2|"arrivals"} Kind of a capture: of one line, of pairs, or of bits in the order of arrival */

/** @typedef {{ magic: string, marks: string, width: number }} Form bits of a mark are its width */

/** @type {Record<Kind, Form>} */
export const FORMS = {
  1: { magic: "TS2BITS1", marks: "01", width: 1 },
  2: { magic: "TS2BITS2", marks: "0123", width: 2 },
  arrivals: { magic: "TS2BITS3", marks: "01oi", width: 2 },
};

/** What may stand between marks. */
export const BLANKS = " \t\r\n";

/** What an octet of a text may be beside a mark: skipped, or else. */
export const SKIPPED = 4;
export const OTHER = 5;

/** Octets of a head, and the most marks that it may count. */
export const HEAD = 16;
const MOST_MARKS = 2n ** 60n;

/**
 * What each octet of a text is: the number of a mark, or one of these.
 * @param {Form} form
 */
export function marksByOctet({ marks }) {
  const table = new Uint8Array(256).fill(OTHER);
  [...BLANKS].forEach((blank) => (table[blank.charCodeAt(0)] = SKIPPED));
  [...marks].forEach((mark, number) => (table[mark.charCodeAt(0)] = number));
  return table;
}

/**
 * The head of a packed capture of so many marks.
 * @param {Form} form
 * @param {number} count
 */
export function headOf({ magic }, count) {
  const head = new Uint8Array(HEAD);
  [...magic].forEach((letter, at) => (head[at] = letter.charCodeAt(0)));
  new DataView(head.buffer).setBigUint64(8, BigInt(count), true);
  return head;
}

/**
 * How many marks the head of a packed capture counts.
 * @param {Form} form
 * @param {Uint8Array} octets the first ones
 */
export function countOf({ magic }, octets) {
  if (octets.length < HEAD) throw new Fault("short head");
  if (String.fromCharCode(...octets.subarray(0, 8)) !== magic) throw new Fault("wrong magic");
  const count = new DataView(octets.buffer, octets.byteOffset).getBigUint64(8, true);
  if (count > MOST_MARKS) throw new Fault("too many bits");
  return Number(count);
}
