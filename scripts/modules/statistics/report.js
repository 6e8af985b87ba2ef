import { counted } from "../text.js";
import { damageOf } from "./damage.js";
import { headLine } from "./sentences.js";
import { tableOf } from "./table.js";
import { verdictOf } from "./verdict.js";
import { NOTHING_KNOWN, wrong } from "./wrong.js";

/** @typedef {import("./bus.js").Bus} Bus */
/** @typedef {import("./wrong.js").Known} Known */

const DOUBTFUL = "The recording is doubtful; look at its wires first:";

// Columns of the sentences.
const WIDTH = 108;

/** What ends a line: a space, but not the one between a number and its unit. */
const GAP = /(?<!\d(?= (?:ms|s)\b)) /;

/**
 * A text in lines, which may be longer where a word is.
 * @param {string} text
 */
function filled(text, indent = "") {
  const [first, ...words] = text.split(GAP);
  const lines = [first];
  for (const word of words) {
    if (lines[lines.length - 1].length + 1 + word.length <= WIDTH) lines.push(`${lines.pop()} ${word}`);
    else lines.push(indent + word);
  }
  return lines.join("\n");
}

/**
 * The sentences at the head of the report.
 * @param {Bus} bus
 * @param {Known} known
 */
function verdictLines(bus, known) {
  const found = wrong(bus, known);
  const { well, lacks, notes } = verdictOf(bus, known, found);
  const numbered = found.map(({ text }, at) => filled(`${at + 1}. ${text}`, "   "));
  const head = found.length > 0 ? ["What is wrong, the most serious first:"] : well;
  return [...head, ...numbered, ...[...lacks, ...notes].map(({ text }) => filled(text))];
}

/**
 * The lines of a table with its two heads; a column that begins a group has a space more before it.
 * @param {readonly import("./table.js").Head[]} heads
 * @param {string[][]} rows
 */
function aligned(heads, rows) {
  const whole = [heads.map((head) => head.group), heads.map((head) => head.name), ...rows];
  const widths = heads.map((_, column) => Math.max(...whole.map((row) => row[column].length)));
  /** @param {string} cell @param {number} column */
  const cellText = (cell, column) => {
    const { group, isLeft } = heads[column];
    const text = isLeft ? cell.padEnd(widths[column]) : cell.padStart(widths[column]);
    return group === "" ? text : ` ${text}`;
  };
  return whole.map((row) => row.map(cellText).join(" ").trimEnd());
}

/** @param {Bus} bus */
function tableLines(bus) {
  const { heads, rows } = tableOf(bus);
  return rows.length > 0 ? ["", ...aligned(heads, rows.map((row) => row.cells))] : [];
}

/** @param {Bus} bus */
function damageLines(bus) {
  const { sentence, where, stretches } = damageOf(bus);
  const lines = stretches.map(
    ({ text, pieces, share }) => `  ${text}: ${counted(pieces, "piece")}, ${share.toFixed(0)} % of all`,
  );
  return sentence === "" ? [] : ["", sentence, ...(where === "" ? [] : [where]), ...lines];
}

/**
 * The whole summary as text, as `bus-summary` writes it.
 * @param {Bus} bus
 * @param {Known} [known]
 * @param {string[]} [warnings] of the recording
 */
export function report(bus, known = NOTHING_KNOWN, warnings = []) {
  const doubts = warnings.map((text) => filled(`- ${text}`, "  "));
  const doubtful = warnings.length > 0 ? [DOUBTFUL, ...doubts, ""] : [];
  const lines = [headLine(bus), "", ...doubtful, ...verdictLines(bus, known), ...tableLines(bus), ...damageLines(bus)];
  return lines.map((line) => `${line}\n`).join("");
}
