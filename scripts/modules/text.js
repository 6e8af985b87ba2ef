/**
 * How texts of people are read: tables and dumps of recordings, listings, dictionaries and limits. They are UTF-8 or
 * UTF-16, with a byte order mark or without one in UTF-8, and their lines end with LF, CR LF or CR. Where a fault shows
 * some of a text, it is short, and what is invisible is seen.
 */

import { Fault } from "./fault.js";
import { joined } from "./octets.js";

const [LINE_FEED, CARRIAGE_RETURN] = [10, 13];

/** The most characters that a fault shows of a text, and of a list of names. */
const SHOWN = 80;
const MOST_NAMES = 400;

/** What cannot be seen, or is seen as a space. */
const INVISIBLE =
  /[\x7f-\xa0\xad\u034f\u061c\u1680\u180e\u2000-\u200f\u2028-\u202f\u205f-\u206f\u3000\ufeff\ufff9-\ufffb]/g;

/** Encodings by their marks, and where the high octet of a character stands. */
const MARKS = [
  { encoding: "utf-8", mark: [0xef, 0xbb, 0xbf], high: -1 },
  { encoding: "utf-16le", mark: [0xff, 0xfe], high: 1 },
  { encoding: "utf-16be", mark: [0xfe, 0xff], high: 0 },
];

/** Text in UTF-16 begins with so many characters of ASCII; samples with its mark do not. */
const OF_ASCII = 8;

/**
 * How a text is encoded.
 * @param {Uint8Array} head
 */
function encodingOf(head) {
  const found = MARKS.find(({ mark, high }) => {
    const rest = head.subarray(mark.length, mark.length + 2 * OF_ASCII);
    const isOfAscii = rest.every((octet, at) => high < 0 || at % 2 !== high || octet === 0);
    return isOfAscii && mark.every((octet, at) => head[at] === octet);
  });
  return found ?? { encoding: "utf-8", mark: [] };
}

/**
 * Whether the first line ends with CR.
 * @param {Uint8Array} head
 */
function endsWithReturn(head) {
  const end = head.indexOf(LINE_FEED);
  return end < 0 ? head.includes(CARRIAGE_RETURN) : head[end - 1] === CARRIAGE_RETURN;
}

/** So much of a text shows how its lines end, if no line did before. */
const LONG_LINE = 4096;

/**
 * Whether a text has begun so far that its first line has its end.
 * @param {Uint8Array} head
 */
function hasLine(head) {
  const at = head.indexOf(CARRIAGE_RETURN);
  return head.length >= LONG_LINE || head.includes(LINE_FEED) || (at >= 0 && at + 1 < head.length);
}

/**
 * Pieces, the first of which has enough of what they begin with, or all. A piece stands until the next one.
 * @param {AsyncIterable<Uint8Array>|Iterable<Uint8Array>} pieces
 * @param {(head: Uint8Array) => boolean} isEnough
 */
export async function* withBeginning(pieces, isEnough) {
  let [head, isBegun] = [new Uint8Array(0), false];
  for await (const piece of pieces) {
    head = isBegun || head.length === 0 ? piece : joined(head, piece);
    isBegun ||= isEnough(head);
    if (isBegun) yield head;
    else head = head.slice();
  }
  if (!isBegun && head.length > 0) yield head;
}

/** Writes LF in place of each CR LF and CR. */
class Lines {
  isAfterReturn = false;

  /** @param {Uint8Array} octets @returns {Uint8Array} */
  plain(octets) {
    const made = new Uint8Array(octets.length);
    let count = 0;
    for (let at = 0; at < octets.length; at++) {
      const isReturn = octets[at] === CARRIAGE_RETURN;
      if (isReturn || octets[at] !== LINE_FEED || !this.isAfterReturn) made[count++] = isReturn ? LINE_FEED : octets[at];
      this.isAfterReturn = isReturn;
    }
    return made.subarray(0, count);
  }
}

/**
 * What makes pieces of a text plain, by its head: UTF-8 without a mark, and lines that end with LF. Nothing where they
 * are.
 * @param {Uint8Array} head
 * @returns {((piece: Uint8Array, isLast: boolean) => Uint8Array)|null}
 */
function plainer(head) {
  const { encoding, mark } = encodingOf(head);
  const [decoder, encoder, lines] = [new TextDecoder(encoding), new TextEncoder(), new Lines()];
  if (encoding !== "utf-8") {
    return (piece, isLast) => lines.plain(encoder.encode(decoder.decode(piece, { stream: !isLast })));
  }
  const isPlain = !endsWithReturn(head.subarray(mark.length));
  if (mark.length === 0 && isPlain) return null;
  let left = mark.length;
  return (piece) => {
    const rest = piece.subarray(left);
    left -= piece.length - rest.length;
    return isPlain ? rest : lines.plain(rest);
  };
}

/**
 * The head of a text, made plain. A character or a line end that goes on behind it may be lacking.
 * @param {Uint8Array} head
 * @returns {Uint8Array}
 */
export const plainHead = (head) => plainer(head)?.(head, false) ?? head;

/**
 * A text that comes in pieces, made plain. A piece stands until the next one.
 * @param {AsyncIterable<Uint8Array>|Iterable<Uint8Array>} pieces
 */
export async function* plainPieces(pieces) {
  /** @type {ReturnType<typeof plainer>|undefined} */
  let plain;
  for await (const piece of withBeginning(pieces, hasLine)) {
    if (plain === undefined) plain = plainer(piece);
    const made = plain === null ? piece : plain(piece, false);
    if (made.length > 0) yield made;
  }
  const rest = plain?.(new Uint8Array(0), true);
  if (rest !== undefined && rest.length > 0) yield rest;
}

/**
 * A whole text, made plain.
 * @param {Uint8Array} octets
 */
export const plainOctets = (octets) => plainer(octets)?.(octets, true) ?? octets;

/**
 * The same, as a text.
 * @param {Uint8Array} octets
 * @param {string} name of its file, for a fault
 */
export function plainText(octets, name) {
  try {
    return new TextDecoder("utf-8", { fatal: true, ignoreBOM: true }).decode(plainOctets(octets));
  } catch {
    throw new Fault(`${name} is no text in UTF-8 or UTF-16: save it as UTF-8`);
  }
}

/** @param {string} text */
const escaped = (text) => text.replace(INVISIBLE, (found) => `\\u${found.charCodeAt(0).toString(16).padStart(4, "0")}`);

/**
 * Some of a text, as a fault shows it: in one line, no longer than that, what is invisible as escapes.
 * @param {string} text
 */
export function quoted(text) {
  const isLong = text.length > SHOWN;
  return `${escaped(JSON.stringify(text.slice(0, SHOWN)))}${isLong ? " .." : ""}`;
}

/**
 * Names in a row, as a fault lists them.
 * @param {string[]} names
 */
export function listed(names) {
  const text = escaped(names.map((name) => (/[\x00-\x1f]/.test(name) ? JSON.stringify(name) : name)).join(", "));
  return text.length > MOST_NAMES ? `${text.slice(0, MOST_NAMES)} ..` : text;
}

/**
 * A count and what is counted: `1 frame`, `2 frames`.
 * @param {number} count
 * @param {string} what in the singular
 */
export const counted = (count, what) => (count === 1 ? `1 ${what}` : `${count} ${what}s`);
