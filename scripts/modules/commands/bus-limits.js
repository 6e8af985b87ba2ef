import { readFileSync } from "node:fs";
import { basename } from "node:path";
import { Fault } from "../fault.js";
import { csvOf, jsonOf, junitOf, textOf, gradeOf } from "../limits/forms.js";
import { judge, worseThan } from "../limits/judge.js";
import { limitsOf } from "../limits/limits.js";
import { pageOf } from "../limits/page.js";
import { RATE } from "../port1.js";
import { Bus } from "../statistics/bus.js";
import { objectOf } from "../statistics/object.js";
import { misuse, positive, run, warn, wordsOf, writeText } from "../system/command.js";
import { dateOf, piecesOf, sha256Of } from "../system/facts.js";
import { textIn } from "../system/file.js";
import { rowsOfInput } from "../system/input.js";
import { writeTextFile } from "../system/output.js";
import { plainPieces } from "../text.js";

/** @typedef {import("../limits/judge.js").Unit} Unit */
/** @typedef {import("../limits/limits.js").Statistics} Statistics */
/** @typedef {(name: string) => Statistics} Baseline what an earlier run knows of a unit */

/** How JSON begins: a listing begins with a digit. */
const BRACE = 123;

/**
 * A tolerance, for an option.
 * @param {string} text
 */
function percentOf(text) {
  if (!/^[0-9]+(\.[0-9]+)?%?$/.test(text)) throw new Fault(`${JSON.stringify(text)} is no number of percent`);
  return Number(text.replace("%", ""));
}

/**
 * The name, listing and recording of a unit.
 * @param {string} word
 */
function unitOf(word) {
  const [name, listing, recording, more] = word.split("=");
  if (!name || !listing || recording === "" || more !== undefined) {
    throw misuse(`${JSON.stringify(word)} is no NAME=LISTING or NAME=LISTING=RECORDING`);
  }
  return { name, listing, recording };
}

/** What each line of a listing ends with. */
const LINE_FEED = 10;

/**
 * The pieces of a listing, whose last line is whole: of one that was cut off, no limit is known to hold.
 * @param {string} file
 */
async function* piecesOfListing(file) {
  let last = LINE_FEED;
  for await (const piece of plainPieces(piecesOf(file, 1 << 16))) {
    last = piece[piece.length - 1];
    yield piece;
  }
  if (last !== LINE_FEED) throw new Fault("the listing was cut off within its last line");
}

/** @param {string} file @param {number} rate */
async function statisticsOf(file, rate) {
  const bus = new Bus(rate);
  for await (const rows of rowsOfInput(piecesOfListing(file))) bus.takeSome(rows);
  bus.end();
  return objectOf(bus);
}

/**
 * The units of an earlier run.
 * @param {string} file
 * @returns {Unit[]}
 */
function unitsIn(file) {
  try {
    const { units } = JSON.parse(readFileSync(file, "utf8"));
    if (Array.isArray(units)) return units;
  } catch (error) {
    if (!(error instanceof SyntaxError)) throw error;
  }
  throw new Fault(`${file} was not written by --json`);
}

/**
 * Whether what JSON has of a unit can be compared.
 * @param {Statistics|undefined} found
 */
function isComparable(found) {
  const kinds = found?.kinds;
  return Array.isArray(kinds) && kinds.every((kind) => kind?.replyMs && kind.gapMs);
}

/**
 * What the earlier run knows of a unit, by its name.
 * @param {string} file
 * @param {number} rate
 * @returns {Promise<Baseline>}
 */
async function baselineOf(file, rate) {
  const [head] = piecesOf(file, 1);
  if (head?.[0] !== BRACE) {
    const statistics = await statisticsOf(file, rate);
    return () => statistics;
  }
  const units = unitsIn(file);
  return (name) => {
    const found = units.find((unit) => unit.name === name)?.statistics;
    if (!isComparable(found)) throw new Fault(`${file} has no statistics of ${name}`);
    return /** @type {Statistics} */ (found);
  };
}

/**
 * A unit with all that is judged of it; its fault is said, and the next unit follows.
 * @param {ReturnType<typeof unitOf>} unit
 * @param {{ limits: import("../limits/limits.js").Limits, rate: number, before: Baseline|null, within: number }} how
 * @returns {Promise<Unit>}
 */
async function judged({ name, listing, recording }, { limits, rate, before, within }) {
  const unit = { name, source: { file: basename(recording ?? listing) }, judgements: [], worse: [] };
  try {
    const source = { ...unit.source, sha256: sha256Of(recording ?? listing) };
    const statistics = await statisticsOf(listing, rate);
    const worse = before === null ? [] : worseThan(before(name), statistics, within);
    return { ...unit, source, statistics, ...judge(limits, statistics), worse };
  } catch (error) {
    const fault = /** @type {Error & { code?: string }} */ (error);
    if (!(fault instanceof Fault) && fault.code === undefined) throw error;
    warn(`${name}: ${fault.message}`);
    return { ...unit, fault: fault.message };
  }
}

const FILES = { junit: String, csv: String, json: String, page: String };

run(async () => {
  const options = { ...FILES, rate: positive, date: String, baseline: String, within: percentOf };
  const { values, words: [file, ...others] } = wordsOf(options, ["LIMITS", "NAME=LISTING"], Infinity);
  const units = others.map(unitOf);
  const twice = units.find(({ name }, at) => units.findIndex((unit) => unit.name === name) < at);
  if (twice) throw misuse(`${twice.name} stands there twice`);
  const { rate = RATE, within = 20, date = dateOf(new Date()) } = values;
  const limits = limitsOf(file, textIn(file));
  const before = values.baseline === undefined ? null : await baselineOf(values.baseline, rate);
  const found = [];
  for (const unit of units) {
    const one = await judged(unit, { limits, rate, before, within });
    if (!("fault" in one)) writeText(textOf(one));
    found.push(one);
  }
  const { junit, csv, json, page } = values;
  if (junit) await writeTextFile(junit, junitOf(found));
  if (csv) await writeTextFile(csv, csvOf(found));
  if (json) await writeTextFile(json, jsonOf(found, date));
  if (page) await writeTextFile(page, pageOf(found, date, { file: basename(file), sha256: sha256Of(file) }));
  const verdicts = found.map(gradeOf);
  return verdicts.includes("FAULT") ? 2 : Number(verdicts.includes("FAIL"));
});
