/**
 * Samples that the analyser lost, told by the clock that runs all the time: where some are lacking, all its edges from
 * there on are out of step with those before.
 *
 * The rises of the clock are taken in blocks. Of each block the mean place within a bit is known far better than that of
 * one edge, since jitter and the rounding to samples even out over it. A block between two others is judged by how far
 * the one after it is out of step with the one before.
 */

/** Rises of a block: so many bits are a whole number of samples at each whole number of MHz. */
const BLOCK = 96;

/** Rises by which the length of a bit is measured. */
const FIRST = 5 * BLOCK;

/** Blocks before and after one by which it is known how fast the clock drifts against this length. */
const DRIFT = 32;
const FEWEST = 4;

/** So many bits after a rise it is known whether samples were lost there. */
export const JUDGED = (FEWEST + 2) * BLOCK;

/** A distance of two rises of so many bits is a stop: lost samples make none above two. */
const STOP = 3;

/** One of so many bits is told. */
const LONG_STOP = 16;

/** Of the rises of a clock nearly all are no farther from the usual distance than this part of it. */
const NEAR = 0.6;
const OF_CLOCK = 0.9;

/**
 * Edges of a clock are together within a bit, by the length of the mean of their directions on a circle. With fewer than
 * two and a half samples a bit it is below the second of these.
 */
const TOGETHER = 0.7;
const COARSE = 0.75;

/** Blocks that are out of step by less than this part of a bit, or so many standard deviations, are in step. */
const LEAST = 1 / 64;
const DEVIATIONS = 7;

/** The most places that are kept one by one. */
const MOST = 12;

/** Octets of a run, and its count of samples behind the levels. */
const RUN = 8;

/**
 * Lost samples: the first sample after them, and the number of the bit that comes then.
 * @typedef {{ sample: number, place: number }} Loss
 */

/**
 * Rises of the clock in a row: their mean place within a bit, how near they are to it, and the number of the first bit.
 * @typedef {{ turn: number, share: number, rises: number[], place: number }} Block
 */

/** @param {number} turns @returns {number} the same within a turn, from -1/2 on */
const wrapped = (turns) => turns - Math.round(turns);

/** @param {number[]} numbers */
const medianOf = (numbers) => [...numbers].sort((one, other) => one - other)[numbers.length >> 1];

/** @param {number[]} times */
const spacingsOf = (times) => times.slice(1).map((time, at) => time - times[at]);

/**
 * The length of a bit, or 0 where these are no rises of a clock.
 * @param {number[]} rises
 */
function lengthOfBit(rises) {
  const spacings = spacingsOf(rises);
  const usual = medianOf(spacings);
  const near = spacings.filter((spacing) => Math.abs(spacing - usual) <= NEAR * usual);
  if (near.length < OF_CLOCK * spacings.length) return 0;
  return near.reduce((sum, spacing) => sum + spacing, 0) / near.length;
}

/**
 * How far rounding moves the mean of a block at most, where times are multiples of a grain.
 * @param {number} bit in grains
 */
function unevenness(bit) {
  let [least, most] = [1, 0];
  for (let begin = 0; begin < 1; begin += 1 / 64) {
    let sum = 0;
    for (let at = 0; at < BLOCK; at++) sum += (begin + at * bit) % 1;
    [least, most] = [Math.min(least, sum / BLOCK), Math.max(most, sum / BLOCK)];
  }
  return most - least;
}

/** Directions by so many steps of a turn, of which the middles stand here. */
const STEPS = 4096;
const ANGLES = Float64Array.from({ length: STEPS }, (_, step) => (2 * Math.PI * (step + 0.5)) / STEPS);
const [COSINES, SINES] = [ANGLES.map(Math.cos), ANGLES.map(Math.sin)];

/**
 * The direction of the mean of some times on a circle of one bit, in turns, and how near they are to it.
 * @param {number[]} times
 * @param {number} bit
 */
function directionOf(times, bit) {
  let x = 0;
  let y = 0;
  for (let at = 0; at < times.length; at++) {
    const turns = times[at] / bit;
    const step = Math.floor(STEPS * (turns - Math.floor(turns)));
    x += COSINES[step];
    y += SINES[step];
  }
  return { turn: Math.atan2(y, x) / (2 * Math.PI), share: Math.hypot(x, y) / times.length };
}

/** Follows a clock. */
export class Losses {
  /**
   * @param {number} hold a level counts once it stood for so many samples and one more
   * @param {boolean} isSampled whether all edges are in whole samples of the analyser
   */
  constructor(hold, isSampled) {
    this.hold = hold;
    this.isSampled = isSampled;
    this.samples = 0;
    this.level = -1; // of the clock in the last sample
    this.counted = -1; // the level that counts
    this.changed = 0; // where it changed last
    this.bits = 0;
    this.bit = 0; // its length in samples, once it is known
    this.uneven = 0; // how far rounding moves the mean of a block, in bits
    this.before = 0; // the last rise
    /** @type {number[]} */
    this.rises = []; // of the next block
    /** @type {Block[]} */
    this.blocks = []; // since the clock stopped last
    this.next = 1; // the block that is judged next
    this.drift = 0; // of a block against the one before, in bits
    this.judged = 0;
    this.scattered = 0; // those whose edges are far apart within a bit
    this.stops = { count: 0, samples: 0, longest: 0, place: 0 }; // how many, of how long in all, and the longest
    this.count = 0;
    /** @type {Loss[]} */
    this.kept = []; // the first of them
    /** @type {Loss|null} */
    this.last = null;
  }

  /** Whether the edges stand so far from their place in a bit as they do with few samples. */
  get isCoarse() {
    return this.judged >= FEWEST && 2 * this.scattered > this.judged;
  }

  /**
   * @param {Uint8Array} piece whole samples
   * @param {number} width octets of a sample
   * @param {number} wire
   */
  takeSamples(piece, width, wire) {
    const [octet, mask] = [wire >> 3, 1 << (wire & 7)];
    const { length } = piece;
    let level = this.level;
    for (let at = octet; at < length; at += width) {
      const now = piece[at] & mask;
      if (now !== level) this.change(this.samples + (at - octet) / width, (level = now));
    }
    this.level = level;
    this.samples += length / width;
  }

  /**
   * @param {Uint8Array} piece whole runs
   * @param {number} wire
   */
  takeRuns(piece, wire) {
    const records = new DataView(piece.buffer, piece.byteOffset, piece.length);
    for (let at = 0; at < piece.length; at += RUN) {
      const low = records.getUint32(at, true);
      const level = (low >>> wire) & 1;
      if (level !== this.level) this.change(this.samples, (this.level = level));
      this.samples += (low >>> 8) + 2 ** 24 * records.getUint32(at + 4, true);
    }
  }

  /**
   * A change of the clock: the level before it counts if it stood long enough.
   * @param {number} time
   * @param {number} level from then on
   */
  change(time, level) {
    const before = level === 0 ? 1 : 0;
    if (time - this.changed > this.hold && this.counted !== before) {
      if (this.counted === 0) this.rise(this.changed);
      this.counted = before;
    }
    this.changed = time;
  }

  /** @param {number} time */
  rise(time) {
    if (this.bit > 0 && time - this.before > LONG_STOP * this.bit) this.countStop(time - this.before);
    if (this.bit > 0 && time - this.before > STOP * this.bit) this.stop();
    this.before = time;
    this.bits += 1;
    this.rises.push(time);
    if (this.bit === 0 && this.rises.length === FIRST) this.measure(this.rises.splice(0));
    else if (this.bit > 0 && this.rises.length === BLOCK) this.add(this.rises.splice(0));
  }

  /**
   * Measures a bit, and takes the rises again, if they are those of a clock.
   * @param {number[]} rises
   */
  measure(rises) {
    this.bit = lengthOfBit(rises);
    if (this.bit === 0) return;
    this.uneven = this.isSampled ? unevenness(this.bit) / this.bit : 0;
    this.bits -= rises.length;
    this.before = rises[0];
    for (const rise of rises) this.rise(rise);
  }

  /** @param {number[]} rises of a block */
  add(rises) {
    const block = { ...directionOf(rises, this.bit), rises, place: this.bits - BLOCK };
    this.judged += 1;
    if (block.share < COARSE) this.scattered += 1;
    this.blocks.push(block);
    this.judge(FEWEST);
    const old = this.next - DRIFT;
    if (old < DRIFT) return;
    this.blocks.splice(0, old);
    this.next -= old;
  }

  /** @param {number} samples that a stop takes */
  countStop(samples) {
    const { stops } = this;
    stops.count += 1;
    stops.samples += samples;
    if (samples > stops.longest) Object.assign(stops, { longest: samples, place: this.bits });
  }

  /** After a stop the clock may go on at any time of a bit. */
  stop() {
    this.judge(1);
    Object.assign(this, { rises: [], blocks: [], next: 1 });
  }

  /** Judges what is left at the end. */
  end() {
    this.judge(1);
    this.next = Infinity;
  }

  /** @param {number} behind so many blocks stand behind those that are judged */
  judge(behind) {
    for (; this.next + behind < this.blocks.length; this.next++) {
      if (this.judged % DRIFT === 0) this.measureDrift(this.next);
      if (!this.isOutOfStep(this.next)) continue;
      this.note(this.next);
      this.next += 1;
    }
  }

  /**
   * Whether samples were lost in a block, and not rather in the one behind it.
   * @param {number} at
   */
  isOutOfStep(at) {
    const { blocks } = this;
    const share = Math.min(blocks[at - 1].share, blocks[at + 1].share);
    if (share < TOGETHER || this.shift(at) <= this.tolerance(share)) return false;
    if (!this.measureDrift(at) || this.shift(at) <= this.tolerance(share)) return false;
    const isWithin = blocks[at].share < TOGETHER;
    const isLast = at + 2 >= blocks.length || blocks[at + 2].share < TOGETHER;
    return isWithin || isLast || this.shift(at + 1) <= this.shift(at);
  }

  /**
   * How far the block behind one is out of step with the one before it, in bits.
   * @param {number} at
   */
  shift(at) {
    return Math.abs(wrapped(this.blocks[at + 1].turn - this.blocks[at - 1].turn - 2 * this.drift));
  }

  /**
   * Measures the drift near a block, if enough blocks are there.
   * @param {number} at
   */
  measureDrift(at) {
    const near = this.blocks.slice(Math.max(0, at - DRIFT), at + FEWEST + 1);
    const advances = near.slice(1).map(({ turn }, index) => wrapped(turn - near[index].turn));
    if (advances.length < FEWEST) return false;
    this.drift = medianOf(advances);
    return true;
  }

  /**
   * How far two blocks may be out of step by chance, in bits.
   * @param {number} share
   */
  tolerance(share) {
    const ofRounding = this.isSampled ? 1 / (12 * this.bit ** 2) : 0;
    const variance = Math.max(0, (-2 * Math.log(share)) / (2 * Math.PI) ** 2 - ofRounding);
    return Math.max(LEAST, DEVIATIONS * Math.sqrt((2 * variance) / BLOCK)) + 3 * this.uneven;
  }

  /**
   * Takes down a loss, where two rises stand least as they ought to.
   * @param {number} at
   */
  note(at) {
    const near = this.blocks.slice(at - 1, at + 2);
    const rises = near.flatMap((block) => block.rises);
    const off = spacingsOf(rises).map((spacing) => Math.abs(spacing - this.bit));
    const worst = off.indexOf(Math.max(...off)) + 1;
    this.last = { sample: rises[worst], place: near[0].place + worst };
    this.count += 1;
    if (this.count <= MOST) this.kept.push(this.last);
  }
}
