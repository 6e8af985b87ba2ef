/**
 * Rows that lie beside what a recording lacks, or in a recording of which nothing is sure: what is wrong there is not
 * blamed on the bus.
 */

import { BAD_VERDICTS, DAMAGE } from "../listing/kinds.js";
import { listed } from "./units.js";

/** @typedef {import("../recording/seams.js").Stretch} Stretch */

/** So many bits before and after are beside: no command and its answer take as many. */
const NEAR = 1024;

/** What is told of each sort: in the singular and in the plural. */
const WORDS = {
  pieces: ["damaged piece", "damaged pieces"],
  verdicts: ["command without an answer in time", "commands without an answer in time"],
  strays: ["stray", "strays"],
};

/** Counts what lies beside. */
export class Beside {
  /** @param {Stretch[]} stretches in their order */
  constructor(stretches) {
    this.stretches = stretches;
    this.lines = { 1: 0, 2: 0 }; // damaged pieces of each
    this.counts = { pieces: 0, verdicts: 0, strays: 0 };
  }

  /** Whether nothing of the recording is sure. */
  get isAll() {
    return this.stretches.some(({ past }) => past === Infinity);
  }

  get total() {
    const { pieces, verdicts, strays } = this.counts;
    return pieces + verdicts + strays;
  }

  /**
   * Whether bits lie beside.
   * @param {number} from
   * @param {number} to
   */
  isNear(from, to) {
    return this.stretches.some(({ first, past }) => from <= past + NEAR && first - NEAR <= to);
  }

  /**
   * Whether a row tells of something wrong that lies beside, which is then counted here.
   * @param {import("./bus.js").Row} row
   * @param {number} past how far the listing reaches
   */
  takes({ kind, line, first, past: end }, past) {
    if (this.stretches.length === 0) return false;
    const sort = DAMAGE.includes(kind) ? "pieces" : BAD_VERDICTS.includes(kind) ? "verdicts" : kind === "stray" ? "strays" : null;
    if (sort === null || !this.isNear(first, sort === "verdicts" ? past : end)) return false;
    this.counts[sort] += 1;
    if (sort === "pieces") this.lines[line ?? 1] += 1;
    return true;
  }

  /** What was counted, in words. */
  get text() {
    const sorts = /** @type {const} */ (["pieces", "verdicts", "strays"]).filter((sort) => this.counts[sort] > 0);
    const texts = sorts.map((sort) => `${this.counts[sort]} ${WORDS[sort][this.counts[sort] === 1 ? 0 : 1]}`);
    return listed(texts);
  }
}
