import { DAMAGE } from "../listing/kinds.js";
import { Histogram } from "./histogram.js";

/** A rest of the controller's line of so many seconds is looked at. */
export const REST_SECONDS = 0.05;

/** The most rests whose places are kept: the longest. */
const MOST_RESTS = 200;

/** What fills a line of the bus: frames and damaged pieces. */
const PIECES = new Set(["frame", ...DAMAGE]);

/**
 * A place of a listing: the number of its row, and the bits that it is about.
 * @typedef {{ row: number, first: number, past: number }} Place
 */

/** @param {Place} place */
const lengthOf = ({ first, past }) => past - first;

/** Times without a frame or a damaged piece: on both lines, and on the line of commands, all of which are counted. */
export class Rests {
  /** @param {number} rate bits a second @param {import("./beside.js").Beside} beside what a rest is not to be blamed on */
  constructor(rate, beside) {
    this.beside = beside;
    this.least = REST_SECONDS * rate; // bits of a rest of commands
    this.reached = -1; // by both lines
    this.longest = 0; // before that
    this.last = -1; // the row that reaches so far
    this.lengths = new Histogram(); // of rests of commands
    this.ofCommands = { reached: -1, row: -1, found: /** @type {Place[]} */ ([]) };
  }

  /**
   * @param {Pick<import("./bus.js").Row, "kind"|"first"|"past"|"line">} row
   * @param {number} at its number
   * @returns {number} how long the rest of commands was that it ends, 0 where it ends none
   */
  take({ kind, first, past, line }, at) {
    if (this.reached < 0) this.reached = this.ofCommands.reached = first;
    if (!PIECES.has(kind)) return 0;
    this.longest = Math.max(this.longest, first - this.reached);
    if (past >= this.reached) [this.reached, this.last] = [past, at];
    return line === 2 ? 0 : this.takeOnFirst(first, past, at);
  }

  /** @param {number} first @param {number} past @param {number} at */
  takeOnFirst(first, past, at) {
    const { ofCommands } = this;
    const length = first - ofCommands.reached;
    const isRest = length >= this.least && !this.beside.isNear(ofCommands.reached, first);
    if (isRest) {
      this.lengths.add(length);
      ofCommands.found.push({ row: ofCommands.row < 0 ? at : ofCommands.row, first: ofCommands.reached, past: first });
      if (ofCommands.found.length > 2 * MOST_RESTS) ofCommands.found = this.longestOnes;
    }
    if (past >= ofCommands.reached) [ofCommands.reached, ofCommands.row] = [past, at];
    return isRest ? length : 0;
  }

  /** The longest rests of commands, the longest first, of equal ones the earlier. */
  get longestOnes() {
    const inOrder = (/** @type {Place} */ one, /** @type {Place} */ other) =>
      lengthOf(other) - lengthOf(one) || one.first - other.first;
    return [...this.ofCommands.found].sort(inOrder).slice(0, MOST_RESTS);
  }

  /**
   * How many rests of commands are so long or longer.
   * @param {number} length
   */
  countOf(length) {
    return this.lengths.above(length - 1);
  }
}
