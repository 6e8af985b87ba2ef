import { Fault } from "../fault.js";
import { quoted } from "../text.js";
import { ChangeList, MOST, changesIn, safeTime } from "./changes.js";
import { positionOf } from "./channels.js";
import { TableHead } from "./csv-head.js";
import { DayTimes } from "./day.js";
import { floatOf, plainDecimal } from "./numbers.js";
import { WHOLE } from "./seams.js";
import { decoded } from "./text.js";
import { beginOfWord, endOfWord } from "./words.js";

const [LINE_END, COMMA, ZERO, ONE] = [10, 44, 48, 49];

/** So many rows of one time, and one of so many rows, are no chance: their times were rounded. */
const FEWEST_MERGED = 2;
const MOST_MERGED = 100;

/** What a cell says of a channel. */
const [LOW, HIGH, UNKNOWN] = [0, 1, 2];

/** Reads the rows of a table. */
export class RowReader {
  /**
   * @param {number[]} columns of the channels
   * @param {boolean} hasTimes whether the first column has them
   * @param {number} scale ticks of one unit of these times
   * @param {boolean} [areOfDay] whether they are times of day
   */
  constructor(columns, hasTimes, scale, areOfDay = false) {
    this.day = areOfDay ? new DayTimes() : null;
    this.width = Math.max(...columns) + 1; // the columns that a row needs at least
    this.put = bitsOfColumns(columns, this.width);
    this.hasTimes = hasTimes;
    this.scale = scale;
    this.list = new ChangeList();
    this.time = -1;
    this.number = 0;
    this.told = -1;
    this.before = -1; // the time of the row before
    this.merged = { count: 0, first: 0 }; // rows of one time that say something else
    this.isKnown = false; // whether all channels have had a level
    this.analog = ""; // the first number that stands in place of one
    this.known = 0; // where the last row stands, without its time,
    this.length = 0; // and its octets
  }

  /**
   * Reads rows.
   * @param {Uint8Array} octets
   * @param {number} begin
   * @param {number} past
   */
  read(octets, begin, past) {
    this.length = 0;
    let at = begin;
    while (at < past) {
      at = this.row(octets, at);
    }
  }

  /** The changes that were read. */
  changes() {
    return this.list.take(this.time);
  }

  /** What stands in the last row. */
  end() {
    this.check();
    this.time += 1;
    return this.changes();
  }

  /**
   * Reads a row, and returns where the next one begins.
   * @param {Uint8Array} octets
   * @param {number} begin
   */
  row(octets, begin) {
    this.number += 1;
    const cells = this.hasTimes ? this.afterTime(octets, begin) : begin;
    this.time += this.hasTimes ? 0 : 1;
    if (!isRepeated(octets, cells, this.known, this.length)) this.learn(octets, begin, cells);
    return cells + this.length;
  }

  /** @param {Uint8Array} octets @param {number} begin @param {number} cells */
  learn(octets, begin, cells) {
    const past = endOf(octets, cells, LINE_END);
    this.known = cells;
    this.length = Math.min(past + 1, octets.length) - cells;
    const level = this.levelOf(octets, begin, past);
    if (level < 1 << MOST) this.isKnown = true;
    else if (!this.isKnown && this.analog === "") this.analog = this.numberIn(octets, begin, past);
    if (level === this.told) return;
    if (this.hasTimes && this.time === this.before && this.told >= 0) this.merge();
    this.list.add(this.time, level);
    this.told = level;
    this.before = this.time;
  }

  /** Refuses a table that has numbers in place of levels. */
  check() {
    if (this.isKnown || this.analog === "") return;
    throw new Fault(`${this.analog} is no level, 0 or 1: export digital channels, and no analog ones`);
  }

  /**
   * The first number in the channels of a row that is no level, as a fault tells it.
   * @param {Uint8Array} octets
   * @param {number} begin
   * @param {number} past
   */
  numberIn(octets, begin, past) {
    const cells = decoded(octets.subarray(begin, past)).split(",").slice(0, this.width);
    const isNumber = (/** @type {string} */ cell, /** @type {number} */ column) =>
      this.put[3 * column + HIGH] !== 0 && ![NaN, LOW, HIGH].includes(floatOf(cell));
    const found = cells.find(isNumber);
    return found === undefined ? "" : `row ${this.number}: ${quoted(found.trim())}`;
  }

  /** Takes down that a row says something else of a time than the one before. */
  merge() {
    if (this.merged.count === 0) this.merged.first = this.time;
    this.merged.count += 1;
  }

  /**
   * What is wrong with the rows that were read: a few of one time say nothing.
   * @returns {import("./seams.js").Seam[]}
   */
  faults() {
    const { count, first } = this.merged;
    if (count < FEWEST_MERGED || count * MOST_MERGED < this.number) return [];
    return [{ sort: "rounded", name: "the table", from: first, count, stretches: [WHOLE] }];
  }

  /**
   * Reads the time, and returns where the other cells begin.
   * @param {Uint8Array} octets
   * @param {number} begin
   */
  afterTime(octets, begin) {
    const past = endOfTime(octets, begin);
    const time = this.timeOf(octets, begin, past);
    if (time < this.time && this.number > 1) {
      throw new Fault(`row ${this.number}: its time is before that of the row before it`);
    }
    this.time = time;
    if (octets[past] !== COMMA) {
      this.length = 0; // a row of one cell is never like the last one
      return past;
    }
    return past + 1;
  }

  /** @param {Uint8Array} octets @param {number} begin @param {number} past */
  timeOf(octets, begin, past) {
    const { day } = this;
    const time = day === null ? this.countOf(octets, begin, past) : day.of(decoded(octets.subarray(begin, past)));
    return Number.isSafeInteger(time) ? time : this.faultOf(time, octets.subarray(begin, past));
  }

  /**
   * Ticks of a time in the table's unit.
   * @param {Uint8Array} octets
   * @param {number} begin
   * @param {number} past
   */
  countOf(octets, begin, past) {
    const plain = plainDecimal(octets, begin, past);
    const value = Number.isNaN(plain) ? floatOf(decoded(octets.subarray(begin, past))) : plain;
    return Math.round(value * this.scale);
  }

  /** @param {number} time @param {Uint8Array} cell */
  faultOf(time, cell) {
    const told = `row ${this.number}: ${quoted(decoded(cell).trim())}`;
    if (!Number.isFinite(time)) throw new Fault(`${told} is no time`);
    return safeTime(time, told);
  }

  /** @param {Uint8Array} octets @param {number} begin @param {number} past */
  levelOf(octets, begin, past) {
    let level = 0;
    let column = 0;
    let cell = begin;
    while (column < this.width && cell <= past) {
      const end = endOfCell(octets, cell, past);
      if (this.put[3 * column + HIGH] !== 0) level |= this.put[3 * column + valueOf(octets, cell, end)];
      column += 1;
      cell = end + 1;
    }
    if (column < this.width) {
      const isCut = past === octets.length;
      const row = `row ${this.number}`;
      throw new Fault(isCut ? `the recording ends within ${row}` : `${row} has ${column} columns`);
    }
    return level;
  }
}

/**
 * The bits that each value sets in the levels, for each column.
 * @param {number[]} columns
 * @param {number} width
 */
function bitsOfColumns(columns, width) {
  const put = new Uint8Array(3 * width);
  columns.forEach((column, channel) => {
    put[3 * column + HIGH] |= 1 << channel;
    put[3 * column + UNKNOWN] |= 1 << (channel + MOST);
  });
  return put;
}

/** @param {Uint8Array} octets @param {number} at @param {number} wanted */
function endOf(octets, at, wanted) {
  while (at < octets.length && octets[at] !== wanted) {
    at += 1;
  }
  return at;
}

/** @param {Uint8Array} octets @param {number} at */
function endOfTime(octets, at) {
  while (at < octets.length && octets[at] !== COMMA && octets[at] !== LINE_END) {
    at += 1;
  }
  return at;
}

/** @param {Uint8Array} octets @param {number} at @param {number} past */
function endOfCell(octets, at, past) {
  while (at < past && octets[at] !== COMMA) {
    at += 1;
  }
  return at;
}

/**
 * Whether octets that have stood before, so many, stand there again.
 * @param {Uint8Array} octets
 * @param {number} at
 * @param {number} known
 * @param {number} length
 */
function isRepeated(octets, at, known, length) {
  if (length === 0 || at + length > octets.length) return false;
  for (let offset = 0; offset < length; offset++) {
    if (octets[at + offset] !== octets[known + offset]) return false;
  }
  return true;
}

/** @param {Uint8Array} octets @param {number} begin @param {number} past @returns {number} */
function valueOf(octets, begin, past) {
  if (past - begin !== 1) return valueOfCell(octets, begin, past);
  return octets[begin] === ONE ? HIGH : octets[begin] === ZERO ? LOW : UNKNOWN;
}

/**
 * The value of a cell with spaces around it, or with some other text.
 * @param {Uint8Array} octets
 * @param {number} begin
 * @param {number} past
 */
function valueOfCell(octets, begin, past) {
  const first = beginOfWord(octets, begin, past);
  const end = endOfWord(octets, first, past);
  if (end - first !== 1 || beginOfWord(octets, end, past) !== past) {
    return valueOfText(decoded(octets.subarray(begin, past)).trim());
  }
  return valueOf(octets, first, end);
}

/** @param {string} text */
function valueOfText(text) {
  return text === "1" ? HIGH : text === "0" ? LOW : UNKNOWN;
}

/**
 * A table (CSV), with commas by now: sigrok writes a row for each sample, Logic of Saleae one for each change.
 * @param {import("./source.js").Source} source
 * @param {string[]} names
 * @returns {Promise<import("./changes.js").Changed>}
 */
export async function changesOfTable(source, names) {
  const head = new TableHead();
  let line = await source.line();
  while (line.length > 0 && !head.ends(line)) {
    line = await source.line();
  }
  const table = head.table();
  const hasTimes = table.unit !== null;
  const columns = names.map((name) => positionOf(name, table.names) + (hasTimes ? 1 : 0));
  // Times have a fraction, down to nanoseconds.
  const scale = table.unit === null ? 1 : Math.max(1, 1e9 / table.unit);
  const ticks = table.unit === null ? table.ticks : table.unit * scale;
  const rows = new RowReader(columns, hasTimes, scale, table.areOfDay);
  return { ticks, changes: changesOf(source, rows, line), positions: columns, faults: () => rows.faults() };
}

/**
 * @param {import("./source.js").Source} source
 * @param {RowReader} rows
 * @param {Uint8Array} first
 */
async function* changesOf(source, rows, first) {
  yield* changesIn(rows, first);
  rows.check();
  for (let lines = await source.wholeLines(); lines.length > 0; lines = await source.wholeLines()) {
    yield* changesIn(rows, lines);
  }
  yield rows.end();
}
