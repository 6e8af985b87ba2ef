/** The bits of a flag (ISO/IEC 13239), and after how many ones in a row a sender puts in a zero. */
const FLAG = "01111110";
const MOST_PLACES = 2 * FLAG.length;
const ONES = 5;

/** @typedef {{ first: number, past: number, text: string }} Part of a frame: an octet, or a flag about it */

/** @typedef {import("../engine/marks.js").Bit} Bit */

/**
 * What the bits of a frame are.
 * @typedef {object} Structure
 * @property {number} line 1 or 2
 * @property {Part[]} parts its octets, and the flags about it
 * @property {number[]} zeros places of zeros that the sender put in
 */

/**
 * @param {import("../../../scripts/modules/listing/listing.js").Listing} listing
 * @param {import("./source.js").Bits} bits
 * @param {number} row of a frame
 * @returns {Structure}
 */
export function structureOf(listing, bits, row) {
  const [first, past] = [listing.firsts[row], listing.pasts[row]];
  const line = listing.lines[row] || 1;
  const before = bits.between(line - 1, first - MOST_PLACES, first).slice(-FLAG.length);
  const after = bits.between(line - 1, past, past + MOST_PLACES).slice(0, FLAG.length);
  const { octets, zeros } = octetsOf(bits.between(line - 1, first, past));
  return { line, parts: [...[before, after].flatMap(flagOf), ...octets], zeros };
}

/**
 * The flag that some bits are, if they are one.
 * @param {Bit[]} bits
 * @returns {Part[]}
 */
function flagOf(bits) {
  if (bits.map(({ digit }) => digit).join("") !== FLAG) return [];
  return [{ first: bits[0].place, past: bits[bits.length - 1].place + 1, text: "flag" }];
}

/**
 * Octets come with their lowest bit first; a zero after five ones belongs to none.
 * @param {Bit[]} bits
 */
function octetsOf(bits) {
  const [octets, zeros] = /** @type {[Part[], number[]]} */ ([[], []]);
  let [ones, count, value, begin] = [0, 0, 0, 0];
  bits.forEach(({ place, digit }) => {
    if (ones === ONES) {
      if (digit === 0) zeros.push(place);
      ones = 0;
      return;
    }
    if (count === 0) begin = place;
    value |= digit << count;
    count += 1;
    ones = digit === 1 ? ones + 1 : 0;
    if (count < 8) return;
    octets.push({ first: begin, past: place + 1, text: value.toString(16).padStart(2, "0") });
    [count, value] = [0, 0];
  });
  return { octets, zeros };
}
