import { readDictionary } from "../dictionary/dictionary.js";
import { RATE } from "../port1.js";
import { warningOf } from "../recording/doubts.js";
import { unsureOf } from "../recording/seams.js";
import { Bus } from "../statistics/bus.js";
import { DayTime } from "../statistics/day-time.js";
import { objectOf } from "../statistics/object.js";
import { report } from "../statistics/report.js";
import { positive, run, wordsOf, writeText } from "../system/command.js";
import { textIn } from "../system/file.js";
import { rowsOfInput } from "../system/input.js";

/** @param {string} text */
const begin = (text) => new DayTime(text);

const NUMBERS = { rate: positive, bits: positive, begin };

const FILES = { dictionary: String, notes: String };

const OPTIONS = { ...NUMBERS, ...FILES, json: /** @type {true} */ (true) };

/** What a line of notes begins with that makes a recording doubtful. */
const WARNING = /^recording-to-bits: warning: /;

/**
 * The warnings in notes of recording-to-bits.
 * @param {string} file
 */
const warningsIn = (file) =>
  textIn(file).split("\n").flatMap((line) => (WARNING.test(line) ? [line.replace(WARNING, "")] : []));

run(async () => {
  const { rate = RATE, dictionary, bits: end = null, begin: dayTime = null, json, notes } = wordsOf(OPTIONS).values;
  const entries = dictionary === undefined ? null : readDictionary(textIn(dictionary));
  const warnings = notes === undefined ? [] : warningsIn(notes);
  const bus = new Bus(rate, dayTime, unsureOf(warnings.map(warningOf)));
  for await (const rows of rowsOfInput()) bus.takeSome(rows);
  bus.end();
  const known = { end, entries };
  writeText(json ? `${JSON.stringify(objectOf(bus, known), null, 2)}\n` : report(bus, known, warnings));
});
