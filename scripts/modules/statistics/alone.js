/**
 * Frames of line 2 in a row, without one of line 1 between.
 * @typedef {object} Run
 * @property {number} frames
 * @property {import("./rests.js").Place|null} begin the last frame of line 1 before them, if there is one
 * @property {number|null} past where the next frame of line 1 begins, if there is one
 * @property {number} damaged pieces before them
 * @property {number} strays among them
 */

/** @param {Run["begin"]} begin @returns {Run} */
const newRun = (begin, damaged = 0) => ({ frames: 0, begin, past: null, damaged, strays: 0 });

/** How many frames each line has, and where line 2 has the most without one of line 1. */
export class Alone {
  frames = { 1: 0, 2: 0 };
  run = newRun(null);
  longest = this.run;

  /** @param {import("./bus.js").Row} row @param {number} at its number @param {number} damaged pieces so far */
  take({ kind, line, first, past }, at, damaged) {
    if (line === null) return;
    if (kind === "stray" && line === 2) this.run.strays += 1;
    if (kind !== "frame") return;
    this.frames[line] += 1;
    if (line === 1) {
      this.run.past = first;
      this.run = newRun({ row: at, first, past }, damaged);
    } else {
      this.run.frames += 1;
      if (this.run.frames > this.longest.frames) this.longest = this.run;
    }
  }
}
