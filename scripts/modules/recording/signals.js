import { Fault } from "../fault.js";
import { listed, plainHead } from "../text.js";
import { positionOf } from "./channels.js";
import { decoded, withSingleSpaces } from "./text.js";
import { UNITS } from "./units.js";
import { Words, characters } from "./words.js";

const DOLLAR = 36;

/**
 * What the definitions of a dump say.
 * @typedef {object} Signals
 * @property {Map<string, Set<string>>} codes of the signals of one bit by name, a character for each octet
 * @property {number|null} ticks in a second
 * @property {boolean} isWhole whether the definitions have their end
 */

/**
 * The words up to the next $end, and whether there is one.
 * @param {Words} words
 */
function sectionOf(words) {
  const section = [];
  let word = words.next();
  while (word !== null && characters(word) !== "$end") {
    section.push(word);
    word = words.next();
  }
  return { section, isEnded: word !== null };
}

/**
 * The definitions; the words after them are left.
 * @param {import("./words.js").Words} words
 * @returns {Signals}
 */
export function signalsOf(words) {
  /** @type {Signals} */
  const signals = { codes: new Map(), ticks: null, isWhole: false };
  for (let word = words.next(); word !== null; word = words.next()) {
    if (word[0] === DOLLAR) {
      const { section, isEnded } = sectionOf(words);
      define(signals, characters(word), isEnded ? section : []);
    }
    if (signals.isWhole) break;
  }
  return signals;
}

/**
 * Whether the definitions have their end in some octets.
 * @param {Uint8Array} head
 * @returns {boolean}
 */
export function isWholeHead(head) {
  const plain = plainHead(head);
  return signalsOf(new Words(plain, plain.length)).isWhole;
}

/** @param {Signals} signals @param {string} keyword @param {Uint8Array[]} section */
function define(signals, keyword, section) {
  if (keyword === "$enddefinitions") {
    signals.isWhole = true;
  } else if (keyword === "$timescale") {
    signals.ticks = ticksOf(section.map(decoded).join(""));
  } else if (keyword === "$var" && section.length > 3 && characters(section[1]) === "1") {
    addCode(signals.codes, section.slice(3).map(decoded).join(" "), characters(section[2]));
  }
}

/** @param {Signals["codes"]} codes @param {string} name @param {string} code */
function addCode(codes, name, code) {
  const known = codes.get(name);
  if (known === undefined) {
    codes.set(name, new Set([code]));
  } else {
    known.add(code);
  }
}

/**
 * Ticks a second of a timescale such as `1us` or `100 ns`.
 * @param {string} scale
 */
function ticksOf(scale) {
  const found = /^(\d*[1-9]\d*)([munpf]?s)$/.exec(scale);
  return found === null ? null : Math.floor((UNITS.get(found[2]) ?? 0) / Number(found[1]));
}

/**
 * The names of the signals, as often as they have different codes.
 * @param {Signals} signals
 * @returns {string[]}
 */
export function namesOf(signals) {
  return [...signals.codes].flatMap(([name, codes]) => Array.from(codes, () => name));
}

/**
 * A name without the bits in brackets at its end.
 * @param {string} name
 */
function withoutBits(name) {
  const begin = name.indexOf("[", name.lastIndexOf("]", name.length - 2) + 1);
  if (begin < 0 || !name.endsWith("]")) return name;
  return name.slice(0, name[begin - 1] === " " ? begin - 1 : begin);
}

/**
 * The code of a signal; a name may leave out the bits in brackets after it.
 * @param {string} name
 * @param {Signals} signals
 * @returns {string}
 */
export function codeOf(name, signals) {
  const whole = namesOf(signals);
  const short = whole.map(withoutBits);
  const names = !whole.includes(withSingleSpaces(name)) && short.includes(name) ? short : whole;
  if (!names.includes(name)) throw new Fault(`no channel has the name ${name}; there are: ${listed(names)}`);
  return [...signals.codes.values()].flatMap((codes) => [...codes])[positionOf(name, names)];
}
