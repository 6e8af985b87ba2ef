import { Fault } from "../fault.js";

const MINUTE = 60000;

/** @type {Record<string, number>} */
const UNITS = { "": 1, K: 2 ** 10, M: 2 ** 20, G: 2 ** 30 };

/**
 * Octets, as 4G or 500M has them.
 * @param {string} text
 */
export function roomOf(text) {
  const [, count, unit] = /^(\d+)([KMG]?)$/.exec(text) ?? [];
  if (count === undefined) throw new Fault(`${JSON.stringify(text)} is no size as 500M or 4G`);
  return Number(count) * UNITS[unit];
}

/**
 * Says things of each sort once a minute; a sort is what stands before the colon.
 * @param {(text: string) => void} say
 */
export function onceAMinute(say) {
  /** @type {Map<string, number>} */
  const last = new Map();
  return (/** @type {string} */ text) => {
    const [sort] = text.split(":");
    if (performance.now() - (last.get(sort) ?? -Infinity) < MINUTE) return;
    last.set(sort, performance.now());
    say(text);
  };
}

/**
 * @typedef {object} Asked
 * @property {string} folder
 * @property {string} program
 * @property {import("./forms.js").Form} form
 * @property {string} dictionary its text
 * @property {{ before: number, after: number, longest: number, ring: number, keep: number, floor: number }} limits
 * @property {Map<string, number>} gaps
 * @property {string} [prometheus]
 * @property {string} [run]
 * @property {import("./wall.js").Wall|import("./wall.js").RecordedWall} wall
 * @property {(text: string) => void} write
 * @property {(text: string) => void} warn
 * @property {import("./disk.js").Disk} [disk]
 * @property {typeof import("./rest.js").linesOf} [lines] what lists a capture
 */
