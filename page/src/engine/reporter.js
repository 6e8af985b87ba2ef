import { ANSWERED, FRAME, IDLE, PENDING, STRAY } from "../../../scripts/modules/listing/kinds.js";
import { Listing, WRONG_LENGTH } from "../../../scripts/modules/listing/listing.js";
import { ENTRY, LINE, PAIR, REPORT, SEEN, TYPES } from "./layout.js";

/** @typedef {import("../../../scripts/modules/dictionary/dictionary.js").Entry} Entry */
/** @typedef {import("./library.js").Library} Library */

/** What is added to the library's number of a verdict to make the number of a kind of lines. */
const VERDICTS = ANSWERED - 1;

/** Commands and answers, by a table of frame types. */
class Pairing {
  /** @param {Library} library @param {Entry[]} entries */
  constructor(library, entries) {
    this.library = library;
    const { places, pointers } = library.places({ pair: PAIR.size, seen: SEEN.size, table: TYPES * ENTRY.size });
    this.places = places;
    this.pointers = pointers;
    for (const entry of entries) this.enter(entry);
    library.call("port1_pair_init", pointers.pair);
  }

  /** @param {Entry} entry */
  enter({ type, length, answered, window }) {
    const { view } = this.library;
    const at = this.places.table + type * ENTRY.size;
    view.setUint8(at + ENTRY.known, 1);
    view.setUint8(at + ENTRY.length, length);
    view.setUint8(at + ENTRY.answered, answered ? 1 : 0);
    view.setUint32(at + ENTRY.window, window, true);
  }

  /**
   * Takes a report of a line, 0 where there is one line, else 1 or 2.
   * @param {number} number
   * @param {number} line
   * @param {number} report
   * @param {number} count
   */
  take(number, line, report, count) {
    const { library } = this;
    const { pair, table, seen } = this.pointers;
    const [told, octets] = [library.pointer(report), library.pointer(line + LINE.octets)];
    library.call("port1_pair_take", pair, table, BigInt(TYPES), number, told, octets, BigInt(count), seen);
  }
}

/** Writes reports, and what follows from them, into a listing, as the lines of `port1 list`. */
export class Reporter {
  /** @param {Library} library @param {Entry[]|null} entries of a dictionary */
  constructor(library, entries) {
    this.library = library;
    this.listing = new Listing();
    this.pairing = entries && new Pairing(library, entries);
    this.heads = Array.from({ length: TYPES }, () => WRONG_LENGTH);
    for (const entry of entries ?? []) this.heads[entry.type] = this.listing.addName(entry.name);
  }

  /**
   * Writes down the report of a line, and what follows from it.
   * @param {number} number 0 where there is one line, else 1 or 2
   * @param {number} line where its decoder is
   * @param {number} report where that is
   */
  tell(number, line, report) {
    const { library, listing, pairing } = this;
    const kind = library.view.getUint32(report + REPORT.kind, true) - 1;
    const [first, past] = [library.number(report + REPORT.first), library.number(report + REPORT.past)];
    const count = kind === FRAME ? library.view.getUint32(line + LINE.count, true) : 0;
    if (pairing) pairing.take(number, line, report, count);
    if (kind === FRAME) {
      listing.addFrame(number, first, past, library.octets, line + LINE.octets, count, this.headOf());
    } else {
      listing.addPiece(number, first, past, kind, library.view.getUint32(report + REPORT.cause, true));
    }
    if (pairing && kind !== IDLE) this.tellSeen(number, first, past);
  }

  /** What stands after the octets of the frame that was told last. */
  headOf() {
    if (!this.pairing) return 0;
    const { view } = this.library;
    const standing = view.getUint32(this.pairing.places.seen + SEEN.standing, true);
    return standing <= WRONG_LENGTH ? standing : this.heads[view.getUint8(this.pairing.places.seen + SEEN.type)];
  }

  /**
   * Writes down the verdict that a report decided, and whether it is a stray.
   * @param {number} number
   * @param {number} first
   * @param {number} past
   */
  tellSeen(number, first, past) {
    const { view } = this.library;
    const { seen } = /** @type {Pairing} */ (this.pairing).places;
    const verdict = view.getUint32(seen + SEEN.verdict, true);
    if (verdict !== 0) {
      const station = view.getUint8(seen + SEEN.commandStation);
      const type = view.getUint8(seen + SEEN.commandType);
      const [begin, end] = [this.library.number(seen + SEEN.first), this.library.number(seen + SEEN.past)];
      this.listing.addStation(number && 1, begin, end, VERDICTS + verdict, station, type);
    }
    if (view.getUint32(seen + SEEN.stray, true) !== 0) {
      const [station, type] = [view.getUint8(seen + SEEN.station), view.getUint8(seen + SEEN.type)];
      this.listing.addStation(number, first, past, STRAY, station, type);
    }
  }

  /**
   * Writes down the command that waits for its answer.
   * @param {number} number 0 where there is one line, else 1
   */
  tellPending(number) {
    if (!this.pairing) return;
    const { library } = this;
    const { pair } = this.pairing.places;
    if (library.view.getUint32(pair + PAIR.waits, true) === 0) return;
    const [first, past] = [library.number(pair + PAIR.first), library.number(pair + PAIR.past)];
    const station = library.view.getUint8(pair + PAIR.station);
    const type = library.view.getUint8(pair + PAIR.type);
    this.listing.addStation(number, first, past, PENDING, station, type);
  }
}
