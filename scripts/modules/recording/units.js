import { Fault } from "../fault.js";
import { quoted } from "../text.js";

/** Units of time by the names that recordings give them, in ticks a second. */
export const UNITS = new Map([
  ["s", 1], ["ms", 1e3], ["us", 1e6], ["ns", 1e9], ["ps", 1e12], ["fs", 1e15],
  ["seconds", 1], ["milliseconds", 1e3], ["microseconds", 1e6], ["nanoseconds", 1e9], ["picoseconds", 1e12],
]);

const RATE = /^(\d+)(?:\.(\d+))?\s*([kMG]?)(?:Hz)?$/;

const ZEROS = new Map([["", 0], ["k", 3], ["M", 6], ["G", 9]]);

/**
 * A rate above 0, for an option.
 * @param {string} text
 */
export function samplerate(text) {
  const rate = hertz(text);
  if (rate === 0) throw new Fault(`${quoted(text)} is no rate above 0`);
  return rate;
}

/**
 * A rate such as `4 MHz`, `4M` or `4000000`, in whole hertz.
 * @param {string} text
 * @returns {number}
 */
export function hertz(text) {
  const found = RATE.exec(text.trim());
  if (found === null) throw new Fault(`${quoted(text)} is no rate`);
  const [, whole, decimals = "", prefix] = found;
  const zeros = ZEROS.get(prefix) ?? 0;
  return Number(whole + decimals.slice(0, zeros).padEnd(zeros, "0"));
}
