import { ROOM } from "./clocked.js";
import { ARRIVAL, GAP, LINE_FACTS, OCCURRENCES, TAP, WIRE, WIRES } from "./layout.js";

/** @typedef {import("../../../scripts/modules/recording/doubts.js").Facts} Facts */
/** @typedef {import("../../../scripts/modules/recording/doubts.js").Seen} Seen */
/** @typedef {import("./library.js").Library} Library */

/** How many octets of samples, or of runs of samples, a call has room for, and how many a run has. */
const OCTETS = 65536;
const RUN = 8;

/** The wires, as a recording and the library have them in order. */
const NAMES = /** @type {const} */ (["firstClock", "firstData", "secondClock", "secondData"]);

/** Takes bits from samples by a tap of the library. */
export class Sampler {
  /**
   * @param {Library} library
   * @param {import("../../../scripts/modules/recording/recording.js").Recording} recording
   * @param {{ hold: number, jump: number, rest: number }} sampling
   * @param {number} turned wires whose levels are exchanged: 1 for TXC, 2 TXD, 4 RXC, 8 RXD
   * @param {{ arrivals: number|null, take: (count: number, octets: Uint8Array) => void }} goal where in memory bits are
   *   put, and what takes them: how many, and a line and a bit for each
   */
  constructor(library, { hasRuns, width, wires }, { hold, jump, rest }, turned, { arrivals, take }) {
    this.library = library;
    this.hasRuns = hasRuns;
    this.width = width; // octets of a sample, or of a run
    this.hand = take;
    this.arrivals = arrivals ?? library.allocate(ROOM * ARRIVAL.size);
    const sizes = { tap: TAP.size, samples: OCTETS, at: 8, arrived: 8, wires: WIRES.size };
    const { places, pointers } = library.places(sizes);
    this.places = places;
    this.pointers = pointers;
    this.nameWires(wires, turned);
    library.call("port1_tap_init", pointers.tap, pointers.wires, hold, BigInt(jump), BigInt(rest));
  }

  /**
   * Writes the wires into memory.
   * @param {number[]} wires
   * @param {number} turned
   */
  nameWires(wires, turned) {
    const { view } = this.library;
    for (const [wire, bit] of wires.entries()) {
      const place = this.places.wires + WIRES[NAMES[wire]];
      view.setUint8(place + WIRE.used, 1);
      view.setUint8(place + WIRE.number, bit);
      view.setUint8(place + WIRE.inverted, (turned >> wire) & 1);
    }
  }

  /** @param {Uint8Array} piece whole samples, or whole runs */
  take(piece) {
    const most = OCTETS - (OCTETS % this.width);
    for (let from = 0; from < piece.length; from += most) this.takeSome(piece.subarray(from, from + most));
  }

  /** @param {Uint8Array} octets that a call has room for */
  takeSome(octets) {
    const { library, places } = this;
    const { view, octets: memory } = library;
    memory.set(octets, places.samples);
    view.setBigUint64(places.at, 0n, true);
    while (library.number(places.at) < octets.length / this.width) {
      this.feed(octets.length);
      const count = library.number(places.arrived);
      this.hand(count, memory.subarray(this.arrivals, this.arrivals + ARRIVAL.size * count));
    }
  }

  /**
   * Has the library take samples or runs that stand in memory.
   * @param {number} octets
   */
  feed(octets) {
    const { library, pointers: { tap, samples, at, arrived } } = this;
    const goal = /** @type {const} */ ([at, library.pointer(this.arrivals), BigInt(ROOM), arrived]);
    if (this.hasRuns) library.call("port1_tap_feed_runs", tap, samples, BigInt(octets / RUN), ...goal);
    else library.call("port1_tap_feed", tap, samples, BigInt(octets), this.width, ...goal);
  }

  /**
   * Samples in which something happens.
   * @param {number} at
   * @returns {Seen}
   */
  seen(at) {
    const number = (/** @type {"count"|"first"|"last"} */ field) => this.library.number(at + OCCURRENCES[field]);
    return { count: number("count"), first: number("first"), last: number("last") };
  }

  /** @returns {Facts} */
  get facts() {
    const { library, places: { tap } } = this;
    const [first, second] = [tap + TAP.first, tap + TAP.second];
    /** @param {number} facts @param {"clockChanges"|"dataChanges"} field @param {typeof NAMES[number]} wire */
    const wire = (facts, field, wire) => ({
      level: library.view.getUint32(tap + TAP[wire], true),
      changes: this.seen(facts + LINE_FACTS[field]),
    });
    const lines = [first, second].map((facts) => {
      const gap = facts + LINE_FACTS.gap;
      const bits = this.seen(facts + LINE_FACTS.bits);
      const high = this.seen(facts + LINE_FACTS.dataChangesHigh);
      const [length, place] = [library.number(gap + GAP.length), library.number(gap + GAP.from)];
      return { bits, gap: { length, place }, high };
    });
    return {
      samples: library.number(tap + TAP.samples),
      wires: {
        txc: wire(first, "clockChanges", "firstClock"),
        txd: wire(first, "dataChanges", "firstData"),
        rxc: wire(second, "clockChanges", "secondClock"),
        rxd: wire(second, "dataChanges", "secondData"),
      },
      lines,
      jumps: this.seen(first + LINE_FACTS.jumps),
      secondJumps: this.seen(second + LINE_FACTS.jumps),
    };
  }
}
