import { Fault } from "../fault.js";
import { joined } from "../octets.js";
import { quoted } from "../text.js";
import { ChangeList, MOST, changesIn, safeTime } from "./changes.js";
import { wholeOf } from "./numbers.js";
import { codeOf, signalsOf } from "./signals.js";
import { notTooLong } from "./source.js";
import { decoded } from "./text.js";
import { Words, afterLastSpace, beginOfWord, characters, endOfWord } from "./words.js";

const [HASH, DOLLAR, ZERO, NINE] = [35, 36, 48, 57];

/** Digits of a time that a double holds for certain. */
const EXACT_DIGITS = 15;

/** What a value does to a channel, by its octet: NONE if it is no value. */
const [LOW, HIGH, UNKNOWN, NONE] = [0, 1, 2, 3];
const VALUES = new Uint8Array(256).fill(NONE);
Object.entries({ 0: LOW, 1: HIGH, x: UNKNOWN, X: UNKNOWN, z: UNKNOWN, Z: UNKNOWN }).forEach(([value, does]) => {
  VALUES[value.charCodeAt(0)] = does;
});

/** Whether the value of a vector or of a real number begins, by its first octet. */
const BEGINS_VECTOR = new Uint8Array(256);
Array.from("bBrR").forEach((letter) => {
  BEGINS_VECTOR[letter.charCodeAt(0)] = 1;
});

/** A value of many bits, as no channel that is followed has. */
const MANY_BITS = new Uint8Array(0);

/** What a change of each of some codes does to the levels: which bits it keeps, and which it sets for each value. */
class Actions {
  /** @param {string[]} channels the code of each channel */
  constructor(channels) {
    const codes = [...new Set(channels)];
    this.codes = codes.map((code) => Uint8Array.from(code, (character) => character.charCodeAt(0)));
    const masks = codes.map((code) => channels.reduce((mask, other, at) => mask | (other === code ? 1 << at : 0), 0));
    this.kept = masks.map((mask) => 0xff & ~(mask | (mask << MOST)));
    this.put = masks.flatMap((mask) => [0, mask, mask << MOST]);
  }

  /**
   * The levels after a change that stands in some octets; -1 if it is of no channel that is followed.
   * @param {number} levels
   * @param {Uint8Array} octets
   * @param {number} begin
   * @param {number} past
   */
  applied(levels, octets, begin, past) {
    const value = VALUES[octets[begin]];
    const code = value === NONE ? -1 : this.codeAt(octets, begin + 1, past);
    return code < 0 ? -1 : this.after(levels, value, code);
  }

  /** @param {number} levels @param {number} value @param {number} code */
  after(levels, value, code) {
    return (levels & this.kept[code]) | this.put[3 * code + value];
  }

  /** @param {Uint8Array} octets @param {number} begin @param {number} past */
  codeAt(octets, begin, past) {
    for (let code = 0; code < this.codes.length; code++) {
      if (isSame(octets, begin, past, this.codes[code])) return code;
    }
    return -1;
  }
}

/** @param {Uint8Array} octets @param {number} begin @param {number} past @param {Uint8Array} wanted */
function isSame(octets, begin, past, wanted) {
  if (past - begin !== wanted.length) return false;
  for (let at = 0; at < wanted.length; at++) {
    if (octets[begin + at] !== wanted[at]) return false;
  }
  return true;
}

/** Reads the words of a dump after its definitions. */
export class DumpReader {
  /** @param {string[]} codes of the channels */
  constructor(codes) {
    this.actions = new Actions(codes);
    this.list = new ChangeList();
    this.levels = ((1 << codes.length) - 1) << MOST;
    this.time = 0;
    this.told = -1; // the levels that were told last
    this.isComment = false;
    this.vector = null; // a value whose code comes next, without its first letter
  }

  /**
   * Reads the words of some octets.
   * @param {Uint8Array} octets
   * @param {number} begin
   * @param {number} past where the last word has ended
   */
  read(octets, begin, past) {
    let at = beginOfWord(octets, begin, past);
    while (at < past) {
      const end = endOfWord(octets, at, past);
      this.word(octets, at, end);
      at = beginOfWord(octets, end, past);
    }
  }

  /** The changes that were read. */
  changes() {
    return this.list.take(this.time);
  }

  /** @param {Uint8Array} octets @param {number} begin @param {number} past */
  word(octets, begin, past) {
    if (this.isComment || this.vector !== null) {
      this.goOn(octets, begin, past);
      return;
    }
    const levels = this.actions.applied(this.levels, octets, begin, past);
    if (levels >= 0) {
      this.levels = levels;
    } else if (octets[begin] === HASH) {
      this.tell();
      this.time = this.timeOf(octets, begin, past);
    } else {
      this.open(octets, begin, past);
    }
  }

  /**
   * A time, which is not before the one that stands before it.
   * @param {Uint8Array} octets
   * @param {number} begin
   * @param {number} past
   */
  timeOf(octets, begin, past) {
    const time = timeOf(octets, begin, past);
    if (time < this.time) throw new Fault(`#${time} stands after #${this.time}, which is a later time`);
    return time;
  }

  tell() {
    if (this.levels !== this.told) {
      this.list.add(this.time, this.levels);
      this.told = this.levels;
    }
  }

  /**
   * A comment, or the value of a vector, which another word ends.
   * @param {Uint8Array} octets
   * @param {number} begin
   * @param {number} past
   */
  open(octets, begin, past) {
    if (octets[begin] === DOLLAR) {
      this.isComment = characters(octets.subarray(begin, past)) === "$comment";
    } else if (BEGINS_VECTOR[octets[begin]] === 1) {
      this.vector = past - begin === 2 ? octets.slice(begin + 1, past) : MANY_BITS;
    }
  }

  /** @param {Uint8Array} octets @param {number} begin @param {number} past */
  goOn(octets, begin, past) {
    if (this.isComment) {
      this.isComment = characters(octets.subarray(begin, past)) !== "$end";
      return;
    }
    if (this.vector !== MANY_BITS) {
      const change = joined(/** @type {Uint8Array} */ (this.vector), octets.subarray(begin, past));
      const levels = this.actions.applied(this.levels, change, 0, change.length);
      this.levels = levels < 0 ? this.levels : levels;
    }
    this.vector = null;
  }

  /** What stands at the last time. */
  end() {
    this.list.add(this.time, this.levels);
    return this.list.take(this.time + 1);
  }
}

/**
 * Whether a word is a time.
 * @param {Uint8Array} word
 */
const isTime = (word) => word[0] === HASH && word.subarray(1).every((digit) => digit >= ZERO && digit <= NINE);

/**
 * The time after a #.
 * @param {Uint8Array} octets
 * @param {number} begin
 * @param {number} past
 */
function timeOf(octets, begin, past) {
  if (past - begin - 1 > EXACT_DIGITS || past - begin === 1) return otherTimeOf(octets, begin, past);
  let time = 0;
  for (let at = begin + 1; at < past; at++) {
    if (octets[at] < ZERO || octets[at] > NINE) return otherTimeOf(octets, begin, past);
    time = time * 10 + (octets[at] - ZERO);
  }
  return time;
}

/** @param {Uint8Array} octets @param {number} begin @param {number} past */
function otherTimeOf(octets, begin, past) {
  const text = decoded(octets.subarray(begin, past));
  const time = wholeOf(text.slice(1));
  if (Number.isNaN(time)) throw new Fault(`${text} is no time`);
  return safeTime(time, text);
}

/** The definitions are no longer than this, in octets. */
const MOST_DEFINITIONS = 1 << 22;

/**
 * What a dump begins with, its definitions among it.
 * @param {import("./source.js").Source} source
 */
async function headOf(source) {
  let head = new Uint8Array(0);
  for (let size = 1 << 12; size <= MOST_DEFINITIONS; size *= 2) {
    const piece = await source.read(size - head.length);
    head = joined(head, piece);
    const past = afterLastSpace(head);
    const words = new Words(head, past);
    const signals = signalsOf(words);
    if (signals.isWhole) return { head, past, words, signals };
    if (piece.length === 0) break;
  }
  throw new Fault("the input is no value change dump: it has no $enddefinitions");
}

/**
 * A value change dump (VCD, IEEE 1364).
 * @param {import("./source.js").Source} source
 * @param {string[]} names
 * @returns {Promise<import("./changes.js").Changed>}
 */
export async function dumpOf(source, names) {
  const { head, past, words, signals } = await headOf(source);
  const codes = names.map((name) => codeOf(name, signals));
  const changes = changesOf(source, new DumpReader(codes), head, words.at, past);
  return { ticks: signals.ticks, changes, positions: codes.map((code) => codes.indexOf(code)) };
}

/**
 * @param {import("./source.js").Source} source
 * @param {DumpReader} reader
 * @param {Uint8Array} first
 * @param {number} begin
 * @param {number} past
 */
async function* changesOf(source, reader, first, begin, past) {
  yield* changesIn(reader, first, begin, past);
  let rest = first.slice(past);
  for (let piece = await source.some(); piece.length > 0; piece = await source.some()) {
    const octets = joined(rest, piece);
    const end = afterLastSpace(octets);
    yield* changesIn(reader, octets, 0, end);
    rest = notTooLong(octets.slice(end));
  }
  const isCut = isTime(rest) && timeOf(rest, 0, rest.length) < reader.time;
  if (!isCut) yield* changesIn(reader, rest, 0, rest.length);
  yield reader.end();
  if (isCut) throw new Fault(`the recording ends within the time ${decoded(rest)}`);
}
