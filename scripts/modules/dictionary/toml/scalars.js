// Numbers, truth values, dates and times of TOML.

/** @typedef {import("./source.js").Source} Source */

const NUMBER = new RegExp(
  "0(?:x[0-9A-Fa-f](?:_?[0-9A-Fa-f])*|b[01](?:_?[01])*|o[0-7](?:_?[0-7])*)" +
    "|[+-]?(?:0|[1-9](?:_?[0-9])*)((?:\\.[0-9](?:_?[0-9])*)?(?:[eE][+-]?[0-9](?:_?[0-9])*)?)",
  "y",
);

const TIME = "([01][0-9]|2[0-3]):([0-5][0-9])(?::([0-5][0-9]|60)(?:\\.([0-9]+))?)?";
const DATE = "([0-9]{4})-(0[1-9]|1[0-2])-(0[1-9]|[12][0-9]|3[01])";
const OFFSET = "(?:([Zz])|([+-])([01][0-9]|2[0-3]):([0-5][0-9]))?";

const DATE_TIME = new RegExp(`${DATE}(?:[Tt ]${TIME}${OFFSET})?`, "y");
const LOCAL_TIME = new RegExp(TIME, "y");

const SPECIAL_FLOAT = /([+-]?)(inf|nan)/y;

const LEAST_INTEGER = -(2n ** 63n);

/** A date, a time or both, as it is written. */
export class DateTime {
  /** @param {string} text */
  constructor(text) {
    this.text = text;
  }

  toString() {
    return this.text;
  }
}

/** @param {number} year @param {number} month */
function daysIn(year, month) {
  const isLeap = year % 4 === 0 && (year % 100 !== 0 || year % 400 === 0);
  return [31, isLeap ? 29 : 28, 31, 30, 31, 30, 31, 31, 30, 31, 30, 31][month - 1];
}

/**
 * A date, with a time and an offset or without.
 * @param {Source} source
 */
function dateTime(source) {
  const begin = source.at;
  const found = source.match(DATE_TIME);
  if (found === null) return undefined;
  const [text, year, month, day] = found;
  if (Number(day) > daysIn(Number(year), Number(month))) {
    source.at = begin;
    throw source.fault("Invalid date or datetime");
  }
  return new DateTime(text);
}

/** @param {Source} source */
function localTime(source) {
  const found = source.match(LOCAL_TIME);
  return found === null ? undefined : new DateTime(found[0]);
}

/** @param {Source} source @param {string} text */
function integer(source, text) {
  const value = BigInt(text);
  if (value < LEAST_INTEGER || value >= -LEAST_INTEGER) throw source.fault("Integer out of range");
  return value;
}

/** @param {Source} source @param {string} text */
function float(source, text) {
  const value = Number(text);
  if (!Number.isFinite(value)) throw source.fault("Float out of range");
  return value;
}

/** @param {Source} source */
function number(source) {
  const found = source.match(NUMBER);
  if (found === null) return undefined;
  const text = found[0].replaceAll("_", "");
  return found[1] ? float(source, text) : integer(source, text);
}

/** @param {Source} source */
function specialFloat(source) {
  const found = source.match(SPECIAL_FLOAT);
  if (found === null) return undefined;
  return found[2] === "nan" ? NaN : Number(`${found[1]}Infinity`);
}

/** @param {Source} source */
function truthValue(source) {
  if (source.takes("true")) return true;
  return source.takes("false") ? false : undefined;
}

/**
 * A truth value, a date or time, or a number: an integer is a BigInt, a float a number.
 * @param {Source} source
 * @returns {boolean|DateTime|bigint|number}
 */
export function readScalar(source) {
  for (const read of [truthValue, dateTime, localTime, number, specialFloat]) {
    const value = read(source);
    if (value !== undefined) return value;
  }
  throw source.fault("Invalid value");
}
