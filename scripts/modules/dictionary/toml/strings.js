// Strings and keys of TOML.

import { MOST_KEY_PARTS } from "./source.js";

/** @typedef {import("./source.js").Source} Source */

const BARE = /[A-Za-z0-9_-]+/y;

// What strings must not have in them, those of one line and those of several.
const CONTROLS = /[\0-\x08\x0a-\x1f\x7f]/;
const CONTROLS_BUT_ENDS = /[\0-\x08\x0b-\x1f\x7f]/;

const PLAIN = /[^"\\\0-\x08\x0a-\x1f\x7f]*/y;
const PLAIN_WITH_ENDS = /(?:[^"\\\0-\x08\x0b-\x1f\x7f]+|"(?!""))*/y;

// The end of a line within a string of several, with the white space that a backslash before it takes away.
const CUT_SPACES = /[ \t]*/y;
const CUT_LINES = /[ \t\n]*/y;

const ESCAPES = new Map([
  ["b", "\b"],
  ["t", "\t"],
  ["n", "\n"],
  ["f", "\f"],
  ["r", "\r"],
  ["e", "\x1b"],
  ['"', '"'],
  ["\\", "\\"],
]);

const HEX_DIGITS = new Map([["x", 2], ["u", 4], ["U", 8]]);

/** @param {number} code */
const isScalar = (code) => code < 0xd800 || (code > 0xdfff && code < 0x110000);

/** @param {Source} source @param {number} count */
function hexCharacter(source, count) {
  const digits = source.text.slice(source.at, source.at + count);
  if (digits.length !== count || !/^[0-9A-Fa-f]+$/.test(digits)) throw source.fault("Invalid hex value");
  source.at += count;
  const code = Number.parseInt(digits, 16);
  if (!isScalar(code)) throw source.fault("Escaped character is not a Unicode scalar value");
  return String.fromCodePoint(code);
}

/**
 * Goes from a backslash before the end of a line to the next text.
 * @param {Source} source
 */
function cutLine(source) {
  source.match(CUT_SPACES);
  if (source.next() !== "\n" && source.next() !== "") throw source.fault("Unescaped '\\' in a string");
  source.match(CUT_LINES);
  return "";
}

/**
 * What a backslash and the characters after it stand for.
 * @param {Source} source
 * @param {boolean} isOfLines
 */
function escape(source, isOfLines) {
  const letter = source.text.charAt(source.at + 1);
  if (isOfLines && letter !== "" && " \t\n".includes(letter)) {
    source.at += 1;
    return cutLine(source);
  }
  source.at += 2;
  const count = HEX_DIGITS.get(letter);
  if (count !== undefined) return hexCharacter(source, count);
  const character = ESCAPES.get(letter);
  if (character === undefined) throw source.fault("Unescaped '\\' in a string");
  return character;
}

/**
 * A basic string after its first quotes, up to its last ones.
 * @param {Source} source
 * @param {boolean} isOfLines
 */
function basicBody(source, isOfLines) {
  let text = "";
  for (;;) {
    text += /** @type {RegExpExecArray} */ (source.match(isOfLines ? PLAIN_WITH_ENDS : PLAIN))[0];
    if (source.takes(isOfLines ? '"""' : '"')) return text;
    if (source.next() === "") throw source.fault("Unterminated string");
    if (source.next() !== "\\") throw source.fault(`Illegal character ${JSON.stringify(source.next())}`);
    text += escape(source, isOfLines);
  }
}

/** @param {Source} source */
function lineString(source) {
  if (source.takes('"')) return basicBody(source, false);
  source.at += 1;
  const text = source.skipTo("'", CONTROLS, true);
  source.at += 1;
  return text;
}

/**
 * A string of several lines; up to two quotes may stand right before the three that end it.
 * @param {Source} source
 * @param {string} mark
 */
function linesString(source, mark) {
  source.at += 3;
  source.takes("\n");
  let text;
  if (mark === '"') {
    text = basicBody(source, true);
  } else {
    text = source.skipTo("'''", CONTROLS_BUT_ENDS, true);
    source.at += 3;
  }
  for (let more = 0; more < 2 && source.takes(mark); more += 1) {
    text += mark;
  }
  return text;
}

/**
 * A string, at its first quote.
 * @param {Source} source
 * @returns {string}
 */
export function readString(source) {
  const mark = source.next();
  return source.startsWith(mark.repeat(3)) ? linesString(source, mark) : lineString(source);
}

/** @param {Source} source */
function keyPart(source) {
  const bare = source.match(BARE);
  if (bare !== null) return bare[0];
  if (source.next() === "'" || source.next() === '"') return lineString(source);
  throw source.fault("Invalid initial character for a key part");
}

/**
 * A key by its parts, and the spaces after it.
 * @param {Source} source
 * @returns {string[]}
 */
export function readKey(source) {
  const parts = [];
  do {
    source.skipSpaces();
    parts.push(keyPart(source));
    source.skipSpaces();
  } while (source.takes("."));
  if (parts.length > MOST_KEY_PARTS) throw source.fault("Too many parts in a key");
  return parts;
}
