import { Fault } from "../fault.js";

/** @typedef {import("./doubts.js").Facts} Facts */
/** @typedef {import("./doubts.js").Seen} Seen */

/** The last of them. */
export const LAST_FACT = "second-jumps";

/**
 * The facts that `port1-sample --facts` writes: a line for each, its name and its numbers.
 * @param {string[]} lines
 * @returns {Facts}
 */
export function factsIn(lines) {
  const words = lines.map((line) => line.split(" "));
  const found = new Map(words.map(([name, ...numbers]) => [name, numbers.map(Number)]));
  /** @param {string} name */
  const numbers = (name) => {
    const known = found.get(name);
    if (known === undefined) throw new Fault(`port1-sample wrote no fact ${name}`);
    return known;
  };
  /** @param {string} name @returns {Seen} */
  const seen = (name) => {
    const [count, first, last] = numbers(name);
    return { count, first, last };
  };
  /** @param {string} name */
  const wire = (name) => ({ level: numbers(`${name}-level`)[0], changes: seen(`${name}-changes`) });
  /** @param {string} line @param {string} data */
  const lineOf = (line, data) => {
    const [length, place] = numbers(`${line}-gap`);
    return { bits: seen(`${line}-bits`), gap: { length, place }, high: seen(`${data}-high`) };
  };
  return {
    samples: numbers("samples")[0],
    wires: { txc: wire("txc"), txd: wire("txd"), rxc: wire("rxc"), rxd: wire("rxd") },
    lines: [lineOf("first", "txd"), lineOf("second", "rxd")],
    jumps: seen("first-jumps"),
    secondJumps: seen("second-jumps"),
  };
}
