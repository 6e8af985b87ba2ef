import { spawnSync } from "node:child_process";
import { closeSync, existsSync, mkdirSync, openSync, readFileSync, readSync, readdirSync } from "node:fs";
import { rmSync, writeFileSync } from "node:fs";
import { basename, join } from "node:path";
import { readDictionary } from "../dictionary/dictionary.js";
import { Fault } from "../fault.js";
import { channelsOf, formOfRecording } from "../recording/forms.js";
import { sessionOf } from "../recording/session.js";
import { samplerate } from "../recording/units.js";
import { wiresAmong } from "../recording/usual.js";
import { misuse, run, warn, whole, wordOf, wordsOf, write, writeText } from "../system/command.js";
import { piecesOf } from "../system/facts.js";
import { openPart, inflated, textIn } from "../system/file.js";
import { commandNamed, page, programNamed } from "../system/program.js";

/** Octets of a recording that tell its form and its channels. */
const HEAD = 1 << 22;

/** The files of a report. */
const FILES = {
  ...{ bits: "tap.bits", notes: "notes.txt", dictionary: "cabinet.toml" },
  ...{ listing: "listing.txt", summary: "summary.txt", page: "report.html" },
};

/** What a listing has where it has a frame. */
const FRAME = " frame ";

/** What stands in a folder until all steps are done. */
const UNFINISHED = "unfinished";

/** The most octets of what a step says. */
const MOST_SAID = 1 << 26;

/**
 * The channels of a recording by their names.
 * @param {string} recording
 */
async function wiresOf(recording) {
  const [file, head] = [openSync(recording, "r"), new Uint8Array(HEAD)];
  try {
    const begin = head.subarray(0, readSync(file, head, 0, HEAD, 0));
    const form = formOfRecording(begin.subarray(0, 4096));
    if (form === "binary") throw new Fault("samples have no names: name the channels by their numbers");
    const isSession = form === "session";
    const channels = isSession ? (await sessionOf(openPart(file), inflated)).names : channelsOf(begin, form);
    const wires = wiresAmong(channels);
    if (wires === null) throw new Fault(`which channels are TXC, TXD, RXC and RXD? There are: ${channels.join(", ")}`);
    return wires;
  } finally {
    closeSync(file);
  }
}

/** A program or command, run from one file to another. */
class Steps {
  /** @param {string} folder */
  constructor(folder) {
    this.folder = folder;
    this.status = 0;
  }

  /** @param {string} name */
  path(name) {
    return join(this.folder, name);
  }

  /**
   * Runs a program; its faults are told, and what it wrote stays.
   * @param {string} program
   * @param {string[]} words
   * @param {string} input
   * @param {string} output
   * @param {string} [told] the file for what it says on standard error
   */
  run(program, words, input, output, told) {
    const files = [openSync(input, "r"), openSync(this.path(output), "w")];
    const how = { stdio: [...files, told ? "pipe" : "inherit"], maxBuffer: MOST_SAID };
    const { status, signal, error, stderr } = spawnSync(program, words, how);
    files.forEach((file) => closeSync(file));
    if (error) throw error;
    if (told) {
      write(stderr, 2);
      writeFileSync(this.path(told), stderr);
    }
    if (status !== 0) this.status = 2;
    if (signal) throw new Fault(`${basename(program)} ended with ${signal}`);
  }

  /**
   * Runs a command of this folder.
   * @param {string} name
   * @param {string[]} words
   * @param {string} input
   * @param {string} output
   * @param {string} [told]
   */
  command(name, words, input, output, told) {
    this.run(process.execPath, [commandNamed(name), ...words], input, output, told);
  }
}

const OPTIONS = {
  ...{ dictionary: String, title: String, samplerate: String, invert: String, rest: whole },
  falling: /** @type {true} */ (true),
};

/** @param {number} [rest] */
const restOf = (rest) => (rest === undefined ? [] : [`--rest=${rest}`]);

/**
 * Options of recording-to-bits, as they were given.
 * @param {{ samplerate?: string, invert?: string, falling?: boolean, rest?: number }} values
 */
const passedOn = ({ samplerate, invert, falling, rest }) => [
  ...(samplerate ? [`--samplerate=${samplerate}`] : []),
  ...(invert ? [`--invert=${invert}`] : []),
  ...(falling ? ["--falling"] : []),
  ...restOf(rest),
];

/**
 * A new folder, or one that a failed call left.
 * @param {string} folder
 */
function made(folder) {
  const there = existsSync(folder) ? readdirSync(folder) : [];
  const own = [UNFINISHED, ...Object.values(FILES)];
  const isLeft = there.includes(UNFINISHED) && there.every((name) => own.includes(name));
  if (there.length > 0 && !isLeft) throw new Fault(`${folder} is there, and not empty`);
  there.forEach((name) => rmSync(join(folder, name), { force: true }));
  mkdirSync(folder, { recursive: true });
  writeFileSync(join(folder, UNFINISHED), "");
  return new Steps(folder);
}

/**
 * Refuses what a step would refuse.
 * @param {string} names
 * @param {string[]} channels
 */
function checkInverted(names, channels) {
  const unknown = names.split(",").find((name) => !channels.includes(name));
  if (unknown !== undefined) throw misuse(`--invert: ${unknown} is none of the channels`);
}

/**
 * The text of a dictionary without faults.
 * @param {string} file
 */
function dictionaryIn(file) {
  const text = textIn(file);
  readDictionary(text);
  return text;
}

/**
 * Whether a listing has a frame, so that a dictionary is drafted.
 * @param {string} listing
 */
function hasFrames(listing) {
  let before = "";
  for (const piece of piecesOf(listing)) {
    const text = before + Buffer.from(piece).toString("latin1");
    if (text.includes(FRAME)) return true;
    before = text.slice(-FRAME.length);
  }
  return false;
}

/** The marks of a first line's bits in a text. */
const MARKS = new Set(Buffer.from("01"));

/**
 * How many bits of the first line a text has.
 * @param {string} bits
 */
function bitsIn(bits) {
  let count = 0;
  for (const piece of piecesOf(bits)) for (const octet of piece) if (MARKS.has(octet)) count += 1;
  return count;
}

run(async () => {
  const { values, words } = wordsOf(OPTIONS, ["RECORDING", "FOLDER"], 6);
  const [recording, folder, ...named] = words;
  if (values.samplerate) wordOf("--samplerate", values.samplerate, samplerate);
  const given = values.dictionary ? dictionaryIn(values.dictionary) : null;
  const channels = named.length > 0 ? named : await wiresOf(recording);
  if (values.invert) checkInverted(values.invert, channels);
  const steps = made(folder);
  const [bits, listing, dictionary] = [FILES.bits, FILES.listing, FILES.dictionary].map((name) => steps.path(name));
  warn(`channels ${channels.join(", ")}`);
  steps.command("recording-to-bits", [...passedOn(values), ...channels], recording, FILES.bits, FILES.notes);
  const list = ["list", "--bits", ...(channels.length > 2 ? ["--arrivals", ...restOf(values.rest)] : [])];
  if (given !== null) writeFileSync(dictionary, given);
  else {
    steps.run(programNamed("port1"), list, bits, FILES.listing);
    if (hasFrames(listing)) steps.command("draft-dictionary", [], listing, FILES.dictionary);
  }
  const isKnown = existsSync(dictionary) && readFileSync(dictionary, "utf8") !== "";
  if (isKnown) {
    const words = [...list, `--dict=${readFileSync(dictionary, "utf8")}`];
    steps.run(programNamed("port1"), words, bits, FILES.listing);
  }
  const count = bitsIn(bits);
  const length = count > 0 ? [`--bits=${count}`] : [];
  const known = [...(isKnown ? [`--dictionary=${dictionary}`] : []), ...length];
  steps.command("bus-summary", [...known, `--notes=${steps.path(FILES.notes)}`], listing, FILES.summary);
  writeText(readFileSync(steps.path(FILES.summary), "utf8"));
  const facts = [`--recording=${recording}`, `--notes=${steps.path(FILES.notes)}`, values.title ?? basename(folder)];
  if (page() !== null) steps.command("list-to-page", [...known, ...facts], listing, FILES.page);
  if (steps.status === 0) rmSync(steps.path(UNFINISHED), { force: true });
  return steps.status;
});
