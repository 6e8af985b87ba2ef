import { OPEN } from "../../../scripts/modules/listing/kinds.js";
import { BEFORE_LENGTH, LINE, MOST_OCTETS, REPORT } from "./layout.js";
import { BLOCK } from "./marks.js";
import { Reporter } from "./reporter.js";

/** @typedef {import("../../../scripts/modules/dictionary/dictionary.js").Entry} Entry */
/** @typedef {import("./library.js").Library} Library */

/** Of each octet its bits 0, 2, 4 and 6, as bits 0 to 3: the bits of the first line in four pairs. */
const FIRSTS = Uint8Array.from({ length: 256 }, (_, octet) =>
  [0, 1, 2, 3].reduce((bits, pair) => bits | (((octet >> (2 * pair)) & 1) << pair), 0),
);

/**
 * The longest frame of a dictionary in octets, address, control and type among them; without one, any may come.
 * @param {Entry[]|null} entries
 */
export function longestOf(entries) {
  return entries ? Math.max(...entries.map((entry) => entry.length + BEFORE_LENGTH)) : MOST_OCTETS;
}

/** A line of the bus: its decoder, its bits, and its report that is not yet told. */
class BusLine {
  at = 0;
  end = 0;
  hasReport = false;

  /** @param {Library} library @param {number} longest */
  constructor(library, longest) {
    this.library = library;
    const sizes = { line: LINE.size, bits: BLOCK, at: 8, report: REPORT.size, flag: 8, first: 8 };
    const { places, pointers } = library.places(sizes);
    this.places = places;
    this.pointers = pointers;
    library.call("port1_line_init", pointers.line, BigInt(longest), 0n);
  }

  /**
   * Takes so many new bits, packed in memory, and looks for the first report.
   * @param {number} end
   */
  begin(end) {
    this.library.view.setBigUint64(this.places.at, 0n, true);
    this.end = end;
    this.at = 0;
    this.advance();
  }

  /** Looks for the next report. */
  advance() {
    const { library, places, end } = this;
    const { line, bits, at, report } = this.pointers;
    this.hasReport = false;
    if (this.at >= end) return;
    library.call("port1_line_feed", line, bits, BigInt((end + 7) >> 3), at, BigInt(end), report);
    this.at = library.view.getUint32(places.at, true);
    this.hasReport = library.view.getUint32(places.report, true) !== 0;
  }

  /** The place of the first bit of a piece that nothing has ended yet, or null. */
  open() {
    const { library, places, pointers } = this;
    library.call("port1_line_open", pointers.line, pointers.flag, pointers.first);
    return library.octets[places.flag] === 0 ? null : library.number(places.first);
  }

  get place() {
    return this.library.number(this.places.line + LINE.place);
  }
}

/** Decodes the bits of one line, or of two with one clock, and writes the lines of `port1 list` into a listing. */
export class Decoder {
  /**
   * @param {Library} library
   * @param {1|2} lines
   * @param {Entry[]|null} entries of a dictionary
   */
  constructor(library, lines, entries) {
    this.library = library;
    this.reporter = new Reporter(library, entries);
    this.lines = Array.from({ length: lines }, () => new BusLine(library, longestOf(entries)));
  }

  get listing() {
    return this.reporter.listing;
  }

  /**
   * Takes the next marks.
   * @param {Uint8Array} octets
   * @param {number} marks
   */
  take(octets, marks) {
    const { octets: memory } = this.library;
    const [first, second] = this.lines.map(({ places }) => places.bits);
    if (second === undefined) memory.set(octets, first);
    for (let at = 0; second !== undefined && at < octets.length; at++) {
      const [to, shift] = [at >> 1, 4 * (at & 1)];
      memory[first + to] = (shift === 0 ? 0 : memory[first + to]) | (FIRSTS[octets[at]] << shift);
      memory[second + to] = (shift === 0 ? 0 : memory[second + to]) | (FIRSTS[octets[at] >> 1] << shift);
    }
    this.decode(marks);
  }

  /** @param {number} bits that stand in memory, of each line */
  decode(bits) {
    for (const line of this.lines) line.begin(bits);
    for (let next = this.next(); next >= 0; next = this.next()) {
      const { places } = this.lines[next];
      this.reporter.tell(this.numberOf(next), places.line, places.report);
      this.lines[next].advance();
    }
  }

  /** The line whose report was decided first, the first line where both were decided at one place; or -1. */
  next() {
    const [first, second] = this.lines;
    if (!second) return first.hasReport ? 0 : -1;
    if (!first.hasReport) return second.hasReport ? 1 : -1;
    return second.hasReport && second.at < first.at ? 1 : 0;
  }

  /** @param {number} index */
  numberOf(index) {
    return this.lines.length === 1 ? 0 : index + 1;
  }

  /** Writes down what is open at the end of the capture. */
  end() {
    this.lines.forEach((line, index) => {
      const first = line.open();
      if (first !== null) this.listing.addPiece(this.numberOf(index), first, line.place, OPEN, 0);
    });
    this.reporter.tellPending(this.lines.length - 1);
    return this.listing;
  }
}
