import { FORMS } from "../../../scripts/modules/capture/forms.js";
import { ARRIVAL } from "./layout.js";
import { countBefore } from "./search.js";

/** @typedef {import("../../../scripts/modules/capture/forms.js").Kind} Kind */
/** @typedef {{ place: number, digit: number }} Bit */
/** @typedef {(octets: Uint8Array, marks: number) => void} Hand takes the octets of so many marks, the first one lowest */

/** How many octets of marks are handed on at once, at most. */
export const BLOCK = 65536;

/** So many octets of marks are kept at most, which is a day and more of Port 1. */
const MOST_KEPT = 2 ** 31;

/** After so many octets of arrivals it is noted how many the first line had. */
const STEP = 4096;

/**
 * How many of four marks in an octet are such.
 * @param {(mark: number) => boolean} isSuch
 */
const countsOf = (isSuch) =>
  Uint8Array.from({ length: 256 }, (_, octet) => [0, 2, 4, 6].filter((at) => isSuch((octet >> at) & 3)).length);

/** Marks of the first line among four arrivals. */
const FIRSTS = countsOf((mark) => mark < 2);

/** Ones of either line, by the kind. */
const ODDS = countsOf((mark) => (mark & 1) === 1);
const HIGHS = countsOf((mark) => mark > 1);
const ONES = {
  1: [ODDS.map((odds, octet) => odds + HIGHS[octet])],
  2: [ODDS, HIGHS],
  arrivals: [1, 3].map((one) => countsOf((mark) => mark === one)),
};

/**
 * The sum of what a table has for some octets.
 * @param {Uint8Array} octets
 * @param {Uint8Array} table
 */
function sumOf(octets, table) {
  let sum = 0;
  for (let at = 0; at < octets.length; at++) sum += table[octets[at]];
  return sum;
}

/** Collects marks in octets, as packed captures have them, and hands them on in blocks. */
export class Packer {
  octets = new Uint8Array(BLOCK);
  bits = 0;

  /** @param {Kind} kind @param {Hand} hand */
  constructor(kind, hand) {
    this.width = FORMS[kind].width;
    this.hand = hand;
  }

  /** @param {number} mark */
  add(mark) {
    const [at, shift] = [this.bits >> 3, this.bits & 7];
    this.octets[at] = shift === 0 ? mark : this.octets[at] | (mark << shift);
    this.bits += this.width;
    if (this.bits === 8 * BLOCK) this.flush();
  }

  /**
   * Takes octets of a packed capture, with so many marks: but for the last of the capture, all of them.
   * @param {Uint8Array} octets
   * @param {number} marks
   */
  addOctets(octets, marks) {
    for (let from = 0; from < octets.length; ) {
      const some = octets.subarray(from, from + BLOCK - (this.bits >> 3));
      this.octets.set(some, this.bits >> 3);
      this.bits += Math.min(8 * some.length, marks * this.width - 8 * from);
      from += some.length;
      if (this.bits === 8 * BLOCK) this.flush();
    }
  }

  /** Hands on what was collected. */
  flush() {
    if (this.bits > 0) this.hand(this.octets.subarray(0, (this.bits + 7) >> 3), this.bits / this.width);
    this.bits = 0;
  }
}

/** The marks that were decoded, in their order, so that they can be decoded again and a picture can show them. */
export class KeptMarks {
  /** @type {Uint8Array[]} of BLOCK octets each, but for the last */
  blocks = [];
  marks = 0;
  firsts = 0; // marks of arrivals on the first line
  /** @type {number[]} the same before each STEP octets */
  before = [];

  /** @param {Kind} kind */
  constructor(kind) {
    this.kind = kind;
    this.inOctet = 8 / FORMS[kind].width;
    this.packer = new Packer(kind, (octets, marks) => this.take(octets, marks));
  }

  /** @type {Hand} takes a block: all but the last are whole */
  take(octets, marks) {
    if (this.blocks.length * BLOCK < MOST_KEPT) this.blocks.push(octets.slice());
    for (let at = 0; this.kind === "arrivals" && at < octets.length; at++) {
      if (at % STEP === 0) this.before.push(this.firsts);
      this.firsts += FIRSTS[octets[at]];
    }
    this.marks += marks;
  }

  /** @param {Uint8Array} octets of arrivals in memory: a line, 1 or 2, and a bit for each */
  keep(octets) {
    for (let at = 0; at < octets.length; at += ARRIVAL.size) {
      this.packer.add(2 * octets[at + ARRIVAL.line] - 2 + octets[at + ARRIVAL.bit]);
    }
  }

  /** Keeps what is left at the end. */
  end() {
    this.packer.flush();
  }

  /** For how many marks more there is room in the last octet, which has zeros there. */
  get spare() {
    return (this.inOctet - (this.marks % this.inOctet)) % this.inOctet;
  }

  /** How many places there are. */
  get length() {
    return this.kind === "arrivals" ? this.firsts - this.spare : this.marks;
  }

  /** How many bits each line has. */
  get counts() {
    return this.kind === "arrivals" ? [this.length, this.marks - this.length] : [this.marks, this.marks];
  }

  /** How many bits of each line are ones, of those that were kept. */
  get ones() {
    return ONES[this.kind].map((ones) => this.blocks.reduce((sum, block) => sum + sumOf(block, ones), 0));
  }

  /** Whether all marks were kept. */
  get isWhole() {
    return this.marks <= this.inOctet * BLOCK * this.blocks.length;
  }

  /**
   * Has another decoder take all that was kept.
   * @template {{ take: Hand }} Taker
   * @param {Taker} decoder
   * @param {(share: number) => void} heard how much it has taken
   */
  replay(decoder, heard = () => undefined) {
    const most = this.inOctet * BLOCK;
    this.blocks.forEach((octets, at) => {
      decoder.take(octets, Math.min(most, this.marks - most * at));
      heard((at + 1) / this.blocks.length);
    });
    return decoder;
  }

  /** @param {number} at the number of a mark; one that was not kept is not a number */
  mark(at) {
    const octet = Math.floor(at / this.inOctet);
    const width = 8 / this.inOctet;
    return (this.blocks[Math.floor(octet / BLOCK)]?.[octet % BLOCK] >> (width * (at % this.inOctet))) & ((1 << width) - 1);
  }

  /**
   * The bits of a line from one place to another; those that are not there or were not kept are left out.
   * @param {number} line 0 or 1
   * @param {number} first
   * @param {number} past
   * @returns {Bit[]}
   */
  between(line, first, past) {
    const kept = Math.min(this.marks, this.inOctet * BLOCK * this.blocks.length);
    if (this.kind === "arrivals") return this.arrived(line, first, past, kept);
    return line < this.kind ? this.paired(line, first, Math.min(past, kept)) : [];
  }

  /** @param {number} line @param {number} first @param {number} past */
  paired(line, first, past) {
    /** @type {Bit[]} */
    const bits = [];
    for (let place = Math.max(first, 0); place < past; place++) {
      bits.push({ place, digit: (this.mark(place) >> line) & 1 });
    }
    return bits;
  }

  /**
   * A bit of the second line stands at the place of the last of the first before it, or at 0.
   * @param {number} line @param {number} first @param {number} past @param {number} kept marks
   */
  arrived(line, first, past, kept) {
    /** @type {Bit[]} */
    const bits = [];
    const step = Math.max(0, countBefore(this.before.length, (at) => this.before[at] < first) - 1);
    for (let at = step * STEP * this.inOctet, firsts = this.before[step]; at < kept && firsts <= past; at++) {
      const mark = this.mark(at);
      if (mark < 2) firsts += 1;
      const place = Math.max(0, firsts - 1);
      if (mark >> 1 === line && place >= first && place < past) bits.push({ place, digit: mark & 1 });
    }
    return bits;
  }
}
