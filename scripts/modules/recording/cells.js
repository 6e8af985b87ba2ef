/**
 * Tables whose cells another octet parts than a comma: a semicolon, as where decimals have a comma, or a tab.
 */

import { withBeginning } from "../text.js";

const [COMMA, POINT, SEMICOLON] = [44, 46, 59];

/** What may part cells, the first of these that does. */
const SEPARATORS = ["\t", ";", ","];

/** What a spreadsheet writes in a line of its own before a table. */
const SAID = /^"?sep=(.)"?$/;

/** So much of a table shows what parts its cells. */
const HEAD = 1 << 16;

/** Lines that say what a table is begin so (sigrok). */
const isRemark = (/** @type {string} */ line) => line.startsWith(";");

/**
 * What parts the cells of a table, by its first lines, and how many octets stand before it.
 * @param {Uint8Array} head
 */
function partingOf(head) {
  const lines = new TextDecoder("latin1").decode(head.subarray(0, HEAD)).split("\n");
  const [, said] = SAID.exec(lines[0]) ?? [];
  if (said !== undefined) return { separator: said, before: lines[0].length + 1, remarks: 0 };
  const own = lines.findIndex((line) => line.trim() !== "" && !isRemark(line));
  const [first = "", second] = own < 0 ? [] : lines.slice(own).filter((line) => line.trim() !== "");
  const separator = SEPARATORS.find((each) => first.includes(each) && (second ?? first).includes(each)) ?? ",";
  const remarks = lines.slice(0, Math.max(own, 0)).reduce((sum, line) => sum + line.length + 1, 0);
  return { separator, before: 0, remarks };
}

/**
 * Whether two lines of a table are there that are no remarks.
 * @param {Uint8Array} head
 */
function hasTwoLines(head) {
  const lines = new TextDecoder("latin1").decode(head.subarray(0, HEAD)).split("\n").slice(0, -1);
  return head.length >= HEAD || lines.filter((line) => line.trim() !== "" && !isRemark(line)).length > 2;
}

/**
 * What makes pieces of a table one whose cells commas part, and whose decimals have a point; nothing where it is.
 * @param {Uint8Array} head
 * @returns {((piece: Uint8Array) => Uint8Array)|null}
 */
function commas(head) {
  const { separator, before, remarks } = partingOf(head);
  if (separator === "," && before === 0) return null;
  const octets = Uint8Array.from({ length: 256 }, (_, octet) => octet);
  if (separator !== ",") [octets[COMMA], octets[separator.charCodeAt(0)]] = [POINT, COMMA];
  let [left, kept] = [before, remarks];
  return (piece) => {
    const rest = piece.subarray(left);
    left -= piece.length - rest.length;
    const made = rest.map((octet, at) => (at < kept ? octet : octets[octet]));
    kept = Math.max(0, kept - rest.length);
    return made;
  };
}

/**
 * Whether a text is a table, by the cells of its first lines.
 * @param {Uint8Array} head
 */
export function isTable(head) {
  const first = head.find((octet) => octet > 32);
  const { separator, before } = partingOf(head);
  return first === SEMICOLON || head.includes(COMMA) || before > 0 || separator !== ",";
}

/**
 * The head of a table, with commas.
 * @param {Uint8Array} head
 * @returns {Uint8Array}
 */
export const headWithCommas = (head) => commas(head)?.(head) ?? head;

/**
 * A table with commas, in pieces.
 * @param {AsyncIterable<Uint8Array>|Iterable<Uint8Array>} pieces
 */
export async function* piecesWithCommas(pieces) {
  /** @type {ReturnType<typeof commas>|undefined} */
  let made;
  for await (const piece of withBeginning(pieces, hasTwoLines)) {
    if (made === undefined) made = commas(piece);
    yield made === null ? piece : made(piece);
  }
}
