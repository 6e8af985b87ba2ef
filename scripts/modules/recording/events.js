import { RATE } from "../port1.js";
import { LONG, MOST_JUMPS, TEXTS, doubtsOf, samplesOfBit } from "./doubts.js";
import { JUDGED } from "./losses.js";
import { placesOf } from "./seams.js";

/** @typedef {import("./doubts.js").Facts} Facts */
/** @typedef {Pick<import("./losses.js").Losses, "samples"|"count"|"last">} Losses */
/** @typedef {import("./moments.js").Moments} Moments */

/** A wire that does not change for so many bits is told, and so long a recording is before it is judged as a whole. */
const QUIET = 10 * RATE;

/** Doubts that a whole recording has or has not. */
const STEADY = new Set([
  ...["still", "flat", "rising", "falling", "turned", "own", "inverted", "slow"],
  ...["crossed", "clocks", "pairs", "data"],
]);

const WIRES = /** @type {const} */ (["txc", "txd", "rxc", "rxd"]);

/**
 * A text with its time, or the last one of several.
 * @param {string} text
 * @param {number} count
 * @param {string} when
 */
const timed = (text, count, when) => `${text} (${count === 1 ? "" : `${count} times, last `}at ${when})`;

/** What becomes doubtful while a recording comes: each event once, with its place. */
export class Events {
  isJudged = false; // as a whole
  stopped = -1; // where the first clock stands still, if it does
  longest = 0; // distance of its edges
  jumps = 0; // of it
  hasWaited = false; // whether the last ones were left to the next look
  lost = 0; // how often samples were
  /** @type {Map<string, number>} */
  quiet = new Map(); // wires that were told, and where they last changed

  /** @param {string[]} names of the wires @param {boolean} rising whether bits are taken at rising edges */
  constructor(names, rising) {
    this.names = names;
    this.rising = rising;
  }

  /**
   * The events since the last look.
   * @param {Facts} facts
   * @param {Moments} when
   * @param {Losses} losses of the first clock
   * @returns {string[]}
   */
  look(facts, when, losses) {
    const bit = samplesOfBit(facts, when.ticks);
    if (bit === 0) return [];
    const ofClock = [...this.ofLosses(losses, when), ...this.ofClock(facts, bit, when, losses)];
    return [...this.ofWhole(facts, bit, when), ...ofClock, ...this.ofWires(facts, bit, when)];
  }

  /** @param {Facts} facts @param {number} bit @param {Moments} when */
  ofWhole(facts, bit, when) {
    if (this.isJudged || facts.samples < QUIET * bit) return [];
    this.isJudged = true;
    const doubts = doubtsOf(facts, this.names, { rising: this.rising, when });
    return doubts.filter(({ sort }) => STEADY.has(sort)).map(({ text }) => text);
  }

  /** @param {Losses} losses @param {Moments} when */
  ofLosses({ count, last }, when) {
    const lost = count - this.lost;
    if (lost === 0 || last === null) return [];
    this.lost = count;
    const { place, sample } = last;
    return [timed(TEXTS.samples(this.names[0], placesOf([{ first: place, past: place }])), lost, when.of(sample))];
  }

  /** @param {Facts} facts @param {number} bit @param {Moments} when @param {Losses} losses */
  ofClock({ lines: [{ bits, gap }], jumps, samples }, bit, when, losses) {
    const [[name], { stopped, longest }, count] = [this.names, this, jumps.count - this.jumps];
    const isStill = bits.count > 0 && samples - bits.last > LONG * bit;
    Object.assign(this, { stopped: isStill ? bits.last : -1, longest: gap.length, jumps: jumps.count });
    if (this.stopped !== stopped) {
      const [length, past] = [when.length(gap.length), when.of(gap.place + gap.length)];
      const told = gap.place === stopped ? `after ${length}, at ${past}` : `by ${when.of(jumps.last)}`;
      const goesOn = stopped >= 0 ? [`${name} goes on (${told})`] : [];
      return isStill ? [...goesOn, `${name} stops (at ${when.of(bits.last)})`] : goesOn;
    }
    if (gap.length > Math.max(longest, LONG * bit)) {
      return [`${name} stops (for ${when.length(gap.length)} from ${when.of(gap.place)} on)`];
    }
    // Whether they are beside lost samples is known some bits later.
    this.hasWaited = !this.hasWaited && count > 0 && losses.samples - jumps.last < JUDGED * bit;
    if (this.hasWaited) this.jumps -= count;
    const isBeside = losses.last !== null && Math.abs(jumps.last - losses.last.sample) <= LONG * bit;
    const isTold = count > 0 && !this.hasWaited && !(isBeside && count <= MOST_JUMPS);
    return isTold ? [timed(TEXTS.lost(name, ""), count, when.of(jumps.last))] : [];
  }

  /** @param {Facts} facts @param {number} bit @param {Moments} when */
  ofWires({ samples, wires }, bit, when) {
    return this.names.flatMap((name, at) => {
      const { count, last } = wires[WIRES[at]].changes;
      const isTold = name === this.names[0] || this.quiet.get(name) === last;
      if (count === 0 || isTold || samples - last < QUIET * bit) return [];
      this.quiet.set(name, last);
      return [`${name} has not changed since ${when.of(last)}`];
    });
  }
}
