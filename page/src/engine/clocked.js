import { OPEN } from "../../../scripts/modules/listing/kinds.js";
import { SILENCE } from "../../../scripts/modules/port1.js";
import { longestOf } from "./decoder.js";
import { ARRIVAL, CLOCKS, REPORT, REST } from "./layout.js";
import { Reporter } from "./reporter.js";

/** @typedef {import("../../../scripts/modules/dictionary/dictionary.js").Entry} Entry */
/** @typedef {import("./library.js").Library} Library */

/** How many bits that arrive a call has room for, and how many of them an octet of marks has. */
export const ROOM = 65536;
const MARKS = 4;

/** Of each octet of marks the arrivals, of which two are a number of 32 bits: a line and a bit for each. */
const PAIRS = Uint32Array.from({ length: 16 }, (_, pair) =>
  [pair & 3, pair >> 2].reduce((all, mark, at) => all | (((mark >> 1) + 1 + 256 * (mark & 1)) << (16 * at)), 0),
);

/** Decodes two lines with a clock each, whose bits come in the order of arrival, in blocks. */
export class ClockedDecoder {
  /**
   * @param {Library} library
   * @param {Entry[]|null} entries of a dictionary
   * @param {number} silence that brings the second line to rest
   */
  constructor(library, entries, silence = SILENCE) {
    this.library = library;
    this.reporter = new Reporter(library, entries);
    const [room, word] = [ROOM * ARRIVAL.size, 8];
    const words = { at: word, next: word, put: word, flag: word, first: word, past: word };
    const sizes = { clocks: CLOCKS.size, rest: REST.size, arrived: room, rested: room, report: REPORT.size, ...words };
    const { places, pointers } = library.places(sizes);
    this.places = places;
    this.pointers = pointers;
    library.call("port1_clocks_init", pointers.clocks, BigInt(longestOf(entries)), 0n);
    library.call("port1_rest_init", pointers.rest, BigInt(silence));
  }

  get listing() {
    return this.reporter.listing;
  }

  /**
   * Puts the arrivals that octets of marks are into memory, as many as a call has room for, and has them taken.
   * @param {Uint8Array} octets
   * @param {number} marks
   * @param {number} place where they are put
   * @param {(count: number) => void} take
   */
  put(octets, marks, place, take) {
    const { words } = this.library;
    for (let from = 0; from < octets.length; from += ROOM / MARKS) {
      const past = Math.min(octets.length, from + ROOM / MARKS);
      for (let at = from, to = place / 4; at < past; at++) {
        words[to++] = PAIRS[octets[at] & 15];
        words[to++] = PAIRS[octets[at] >> 4];
      }
      take(Math.min(ROOM, marks - MARKS * from));
    }
  }

  /**
   * Takes marks of bits as they arrived, and has them kept with the ones that bring the second line to rest.
   * @param {Uint8Array} octets
   * @param {number} marks
   * @param {(octets: Uint8Array) => void} keep a line and a bit for each
   */
  arrive(octets, marks, keep) {
    this.put(octets, marks, this.places.arrived, (count) => this.rest(count, keep));
  }

  /**
   * Takes marks among which these ones are.
   * @param {Uint8Array} octets
   * @param {number} marks
   */
  take(octets, marks) {
    this.put(octets, marks, this.places.rested, (count) => this.decode(count));
  }

  /**
   * Takes so many arrivals that stand in memory, and has them kept with the ones that bring the second line to rest.
   * @param {number} count
   * @param {(octets: Uint8Array) => void} keep
   */
  rest(count, keep) {
    const { library, places, pointers } = this;
    const { rest, arrived, rested, next, put } = pointers;
    library.view.setBigUint64(places.next, 0n, true);
    while (library.number(places.next) < count) {
      library.call("port1_rest_feed", rest, arrived, BigInt(count), next, rested, BigInt(ROOM), put);
      const all = library.number(places.put);
      keep(library.octets.subarray(places.rested, places.rested + ARRIVAL.size * all));
      this.decode(all);
    }
  }

  /**
   * Decodes so many arrivals behind those that came to rest.
   * @param {number} count
   */
  decode(count) {
    const { library, places, pointers } = this;
    const { clocks, rested, at, report } = pointers;
    library.view.setBigUint64(places.at, 0n, true);
    for (;;) {
      library.call("port1_clocks_feed", clocks, rested, BigInt(count), at, report);
      if (library.view.getUint32(places.report + REPORT.kind, true) === 0) return;
      const last = places.rested + ARRIVAL.size * (library.number(places.at) - 1);
      const line = library.octets[last + ARRIVAL.line];
      this.reporter.tell(line, places.clocks + (line === 1 ? CLOCKS.first : CLOCKS.second), places.report);
    }
  }

  /** Writes down what is open at the end of the capture. */
  end() {
    for (const number of [1, 2]) this.tellOpen(number);
    this.reporter.tellPending(1);
    return this.listing;
  }

  /** @param {number} number 1 or 2 */
  tellOpen(number) {
    const { library, places } = this;
    const { clocks, flag, first, past } = this.pointers;
    library.call("port1_clocks_open", clocks, number, flag, first, past);
    if (library.octets[places.flag] === 0) return;
    this.listing.addPiece(number, library.number(places.first), library.number(places.past), OPEN, 0);
  }
}
