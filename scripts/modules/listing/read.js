import { Fault } from "../fault.js";
import { joined } from "../octets.js";
import { plainHead, quoted } from "../text.js";
import { Cursor } from "./cursor.js";
import { ANSWERED, CAUSES, DAMAGED, FRAME, KINDS, OPEN, typeOf } from "./kinds.js";
import { Listing, NO_HEAD, OTHER_CONTROL, UNTYPED } from "./listing.js";

const LINE_END = 10;

/** How much of a wrong line is read to be shown. */
const SHOWN = 256;

/** The octets of a frame that a dictionary can have, its check among them, and some more. */
const MOST_OCTETS = 1024;

const NUMBERS = new Map(KINDS.map((kind, number) => [kind, number]));

/**
 * Whether this is the beginning of a listing: its first line is one.
 * @param {Uint8Array} head
 */
export function isListing(head) {
  const plain = plainHead(head);
  const end = plain.indexOf(LINE_END);
  return new LineReader(new Listing()).take(plain, 0, end < 0 ? plain.length : end);
}

/** Reads lines into a listing. A line that `port1 list` would write otherwise is none of a listing. */
class LineReader {
  /** @param {Listing} listing */
  constructor(listing) {
    this.listing = listing;
    this.frame = new Uint8Array(MOST_OCTETS);
  }

  /**
   * Whether these octets are a line, which is then in the listing.
   * @param {Uint8Array} octets
   * @param {number} begin
   * @param {number} end
   */
  take(octets, begin, end) {
    const cursor = new Cursor(octets, begin, end);
    let line = 0;
    let first = cursor.number();
    if (first < 0 || !cursor.space()) return false;
    let past = cursor.number();
    if (past < 0 || !cursor.space()) return false;
    if (cursor.isAtDigit) {
      [line, first, past] = [first, past, cursor.number()];
      if (line < 1 || line > 2 || past < 0 || !cursor.space()) return false;
    }
    const kind = NUMBERS.get(/** @type {import("./kinds.js").LineKind} */ (cursor.word()));
    return kind !== undefined && this.takeRest(cursor, line, first, past, kind) && cursor.isAtEnd;
  }

  /** @param {Cursor} cursor @param {number} line @param {number} first @param {number} past @param {number} kind */
  takeRest(cursor, line, first, past, kind) {
    if (kind === FRAME) return this.takeFrame(cursor, line, first, past);
    if (kind >= ANSWERED && kind !== OPEN) return this.takeStation(cursor, line, first, past, kind);
    const cause = kind === DAMAGED && cursor.space() ? CAUSES.indexOf(cursor.word()) : 0;
    if (cause < 0 || (kind === DAMAGED && cause === 0)) return false;
    this.listing.addPiece(line, first, past, kind, cause);
    return true;
  }

  /** @param {Cursor} cursor @param {number} line @param {number} first @param {number} past @param {number} kind */
  takeStation(cursor, line, first, past, kind) {
    const station = cursor.skip(" station ") ? cursor.number() : -1;
    const type = cursor.skip(" type ") ? cursor.number() : -1;
    if (station < 0 || station > 255 || type < 0 || type > 255) return false;
    this.listing.addStation(line, first, past, kind, station, type);
    return true;
  }

  /** @param {Cursor} cursor @param {number} line @param {number} first @param {number} past */
  takeFrame(cursor, line, first, past) {
    if (!cursor.space()) return false;
    const count = cursor.hex(this.frame);
    const head = count > 0 ? this.headOf(cursor, this.frame, count) : -1;
    if (head < 0) return false;
    this.listing.addFrame(line, first, past, this.frame, 0, count, head);
    return true;
  }

  /**
   * The number of what stands after the octets of a frame, or -1 where that is not to be.
   * @param {Cursor} cursor
   * @param {Uint8Array} octets
   * @param {number} count
   */
  headOf(cursor, octets, count) {
    if (cursor.isAtEnd) return NO_HEAD;
    if (cursor.skip(" untyped")) return UNTYPED;
    if (cursor.skip(" control ")) return count > 1 && cursor.number() === octets[1] ? OTHER_CONTROL : -1;
    const type = typeOf(octets, 0, count);
    const agrees =
      cursor.skip(" station ") && cursor.number() === octets[0] && cursor.skip(" type ") && cursor.number() === type;
    const name = agrees && cursor.space() ? cursor.word() : "";
    return name ? this.listing.head(name) : -1;
  }
}

/** Reads a listing that `port1 list` wrote, in pieces that end anywhere. */
export class ListingReader {
  constructor() {
    this.listing = new Listing();
    this.lines = new LineReader(this.listing);
    this.rest = new Uint8Array(0);
    this.given = 0; // lines of the listing that were given out as rows
    this.forgotten = 0; // and lines before these
  }

  /** The lines that have come since the last were forgotten, as rows. They stand until the next are taken. */
  newRows() {
    return this.listing.rows(this.given);
  }

  /** Forgets what was read, so that a listing of any length takes no more memory. */
  forget() {
    this.forgotten += Math.max(0, this.listing.length - 1);
    this.listing.keepLast();
    this.given = this.listing.length;
  }

  /**
   * Takes the next octets.
   * @param {Uint8Array} piece
   */
  take(piece) {
    const octets = this.rest.length > 0 ? joined(this.rest, piece) : piece;
    let begin = 0;
    for (let end = octets.indexOf(LINE_END); end >= 0; end = octets.indexOf(LINE_END, begin)) {
      this.takeLine(octets, begin, end);
      begin = end + 1;
    }
    this.rest = octets.slice(begin);
  }

  /** @returns {Listing} all that was read */
  end() {
    if (this.rest.length > 0) this.takeLine(this.rest, 0, this.rest.length);
    return this.listing;
  }

  /** @param {Uint8Array} octets @param {number} begin @param {number} end */
  takeLine(octets, begin, end) {
    const { length } = this.listing;
    if (this.lines.take(octets, begin, end)) return;
    this.listing.drop(length); // of a line with something after its end
    const text = new TextDecoder("utf-8", { ignoreBOM: true }).decode(octets.subarray(begin, Math.min(end, begin + SHOWN)));
    const number = this.forgotten + length + 1;
    throw new Fault(`line ${number} is no line of \`port1 list\`: ${quoted(text)}`);
  }
}
