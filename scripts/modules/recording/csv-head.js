import { Fault } from "../fault.js";
import { quoted } from "../text.js";
import { isTimeOfDay } from "./day.js";
import { decodedWithoutMark } from "./text.js";
import { UNITS, hertz } from "./units.js";

/**
 * What the lines before the samples say.
 * @typedef {object} Table
 * @property {string[]} names
 * @property {number|null} unit of the column of times, in ticks a second; none where there is no such column
 * @property {number|null} ticks in a second
 * @property {boolean} areOfDay whether the times are times of day
 */

/** Reads the lines of a table up to the first row of samples. */
export class TableHead {
  constructor() {
    /** @type {string[]} */
    this.names = [];
    /** @type {string[]} */
    this.head = [];
    this.ticks = null;
    this.areOfDay = false;
  }

  /**
   * Whether a line is the first row of samples; if not, takes what it says.
   * @param {Uint8Array} line
   * @returns {boolean}
   */
  ends(line) {
    const text = decodedWithoutMark(line).trim();
    if (text.startsWith(";")) {
      this.remark(text.slice(1).trim());
    } else if (/^[-+]?\p{Nd}/u.test(text)) {
      this.areOfDay = isTimeOfDay(text.split(",", 1)[0]);
      return true;
    } else if (text !== "") {
      this.head = text.split(",").map((cell) => cell.trim().replace(/^"+/, "").replace(/(?<!")"+$/, ""));
    }
    return false;
  }

  /** @param {string} text */
  remark(text) {
    const [word] = text.split(":", 1);
    const value = text.slice(word.length + 1);
    if (word.startsWith("Channels") && value !== "") this.names = value.split(",").map((name) => name.trim());
    if (word === "Samplerate") this.ticks = hertz(value);
  }

  /** @returns {Table} */
  table() {
    const { names, head, ticks } = this;
    const unit = this.areOfDay ? 1 : head.length > 0 ? unitOf(head[0]) : null;
    if (head.length > 0 && unit === null && head[0].toLowerCase().startsWith("time")) {
      throw new Fault(`the times of the column ${quoted(head[0])} have no known unit: export them in seconds`);
    }
    const columns = unit === null ? head : head.slice(1);
    return { names: names.length > 0 ? names : columns, unit, ticks, areOfDay: this.areOfDay };
  }
}

/**
 * The unit of a column of times, by its head.
 * @param {string} cell
 */
function unitOf(cell) {
  const found = /^(?:time ?[[(](\w+)[\])]|(\w+))$/.exec(cell.trim().toLowerCase());
  return found === null ? null : (UNITS.get(found[1] ?? found[2]) ?? null);
}
