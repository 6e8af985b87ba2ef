import { ANSWER } from "../port1.js";
import { Counts } from "./kinds.js";

/** @typedef {import("./rests.js").Place} Place */

/** So many commands in a row without an answer, of several kinds, are one fault. */
const FEWEST = 3;

/** The most rows of which the places are kept. */
const MOST_ROWS = 200;

/** Commands without an answer between them: how many of each kind, from the first of them on. */
class Unanswered extends Counts {
  /** @type {Place|null} */
  begin = null;
}

/**
 * Commands in a row that no station answered: at least three, of two kinds, with one to each station that answered
 * before; these are two or more where an answer follows.
 */
export class Answers {
  constructor() {
    this.answers = 0;
    this.damaged = 0; // pieces before the last answer,
    this.within = 0; // and in such rows
    this.missing = new Unanswered();
    /** @type {Set<number|null>} */
    this.stations = new Set(); // that have answered
    this.rows = 0;
    /** @type {Place[]} */
    this.places = []; // of the first of these rows
    this.ofRows = new Counts(); // commands in them
    /** @type {{ place: Place, total: number, kinds: Counts["kinds"] }|null} */
    this.longest = null;
  }

  /** @param {import("./bus.js").Row} row @param {number} at its number @param {number} damaged pieces so far */
  take({ kind, first, past, line, station, type }, at, damaged) {
    if (kind === "missing") {
      this.missing.begin ??= { row: at, first, past };
      this.missing.add(station, type);
    }
    if (kind === "answered" || kind === "late") this.stations.add(station);
    if (kind !== "frame") return;
    if (line === 1 || type === null || type < ANSWER) return;
    this.end(first, damaged, 2);
    this.answers += 1;
  }

  /**
   * Ends a row.
   * @param {number} past
   * @param {number} damaged
   * @param {number} [fewest] stations that answered before
   */
  end(past, damaged, fewest = 0) {
    if (this.missing.begin !== null) {
      if (this.isRow(fewest)) this.add({ ...this.missing.begin, past }, damaged - this.damaged);
      this.missing = new Unanswered();
    }
    this.damaged = damaged;
  }

  /**
   * Whether what is missing now is such a row.
   * @param {number} fewest stations that answered before
   */
  isRow(fewest) {
    const kinds = this.missing.kinds.sorted();
    const asked = new Set(kinds.map(([{ station }]) => station));
    const isOfAll = [...this.stations].every((station) => station === null || asked.has(station));
    return this.missing.total >= FEWEST && kinds.length > 1 && this.stations.size >= fewest && isOfAll;
  }

  /** @param {Place} place @param {number} damaged */
  add(place, damaged) {
    this.rows += 1;
    this.within += damaged;
    if (this.places.length < MOST_ROWS) this.places.push(place);
    this.ofRows.addAll(this.missing);
    if (this.longest === null || this.missing.total > this.longest.total) {
      this.longest = { place, total: this.missing.total, kinds: this.missing.kinds };
    }
  }

  /**
   * All such rows, with the one that goes on at a place.
   * @param {number} past
   * @param {number} damaged
   */
  upTo(past, damaged) {
    const all = new Answers();
    const { rows, ofRows, places } = this;
    Object.assign(all, { ...this, ofRows: all.ofRows, places: [...places] });
    all.ofRows.addAll(ofRows);
    all.end(past, damaged);
    return { ...all, goesOn: all.rows > rows };
  }
}
