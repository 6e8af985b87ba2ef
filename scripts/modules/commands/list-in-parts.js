import { spawnSync } from "node:child_process";
import { closeSync, existsSync, fstatSync, mkdirSync, openSync, readFileSync, readdirSync, writeFileSync } from "node:fs";
import { availableParallelism } from "node:os";
import { join } from "node:path";
import { Engine, joinPart } from "../capture/engine.js";
import { captureToCut, partsOf } from "../capture/parts.js";
import { Fault } from "../fault.js";
import { isOfSystem, misuse, positive, run, wordsOf, write } from "../system/command.js";
import { TOP, programNamed } from "../system/program.js";
import { catchHangup, endedBy, onEndOfStream } from "../system/signals.js";

/** @typedef {import("../capture/parts.js").Capture} Capture */
/** @typedef {import("../capture/parts.js").Part} Part */

/** How many octets before a cut the next part begins, at first. */
const OVERLAP = 4096;

/** How many parts for each job are cut before the first is joined: each may have its listing in an open file. */
const AHEAD = 4;

/** Most parts, whose numbers have four digits. */
const MOST_PARTS = 9999;

const OPTIONS = { cut: String, join: String, parts: positive, jobs: positive, overlap: positive };

/** @param {number} number */
const nameOf = (number) => `part-${String(number).padStart(4, "0")}`;

/** @param {Uint8Array} octets */
function writeOut(octets) {
  try {
    write(octets);
  } catch (error) {
    throw isOfSystem(error, "EPIPE") ? error : new Fault("write failed");
  }
}

/**
 * Lists the parts side by side, and writes the lines of each as soon as it and all before it are listed.
 * @param {Capture} capture
 * @param {{ parts: number, jobs: number, overlap: number }} request
 */
async function listParts(capture, { parts, jobs, overlap }) {
  const engine = new Engine(capture, jobs);
  catchHangup();
  onEndOfStream(() => engine.stop());
  /** @type {{ part: Part, listed: Promise<number>, isDone: boolean }[]} */
  const waiting = [];
  const joinFirst = async () => {
    const [{ part, listed }] = waiting.splice(0, 1);
    const [listing, isLast] = [await listed, part.past === capture.octets];
    const name = `octets ${part.first} to ${part.past}`;
    joinPart(listing, { name, seam: part.seam, lines: capture.lines, isLast }, writeOut);
    closeSync(listing);
  };
  try {
    for await (const part of partsOf(capture, parts, overlap, false)) {
      const each = { part, listed: engine.list(part), isDone: false };
      each.listed.then(() => (each.isDone = true), () => (each.isDone = true));
      waiting.push(each);
      while (waiting.length > AHEAD * jobs || waiting[0]?.isDone) await joinFirst();
    }
    while (waiting.length > 0) await joinFirst();
  } catch (fault) {
    engine.stop();
    await Promise.allSettled(waiting.map(({ listed }) => listed));
    if (endedBy() === null) throw fault;
  }
}

/**
 * The script that lists a part.
 * @param {Capture} capture
 * @param {Part} part
 */
function scriptOf(capture, part) {
  const program = capture.program.startsWith(TOP) ? capture.program : process.env.PORT1 || "port1";
  return `# Lists the octets ${part.first} to ${part.past} of the bits of a capture.
part=\${0%.sh}
${capture.commandOf(part, program)} > "$part.new" && mv "$part.new" "$part.list"
`;
}

/**
 * Writes a script and the seam of each part; `count` says how many there are, and of how many lines.
 * @param {Capture} capture
 * @param {string} folder
 * @param {{ parts: number, overlap: number }} request
 */
async function cutTo(capture, folder, { parts, overlap }) {
  mkdirSync(folder, { recursive: true });
  if (readdirSync(folder).length > 0) throw new Fault(`${folder} is not empty`);
  let count = 0;
  for await (const part of partsOf(capture, parts, overlap, true)) {
    const name = join(folder, nameOf(count++));
    writeFileSync(`${name}.seam`, part.seam);
    writeFileSync(`${name}.sh`, scriptOf(capture, part));
  }
  writeFileSync(join(folder, "count"), `${count} ${capture.lines}\n`);
}

/**
 * How many parts a folder has, and of how many lines.
 * @param {string} folder
 */
function countIn(folder) {
  const file = join(folder, "count");
  const [, count, lines] = (existsSync(file) && /^(\d+) (\d+)\s*$/.exec(readFileSync(file, "utf8"))) || [];
  if (count === undefined) throw new Fault(`${folder} has no parts`);
  return { count: Number(count), lines: Number(lines) };
}

/**
 * Writes the lines of the parts of a folder, which have all been listed.
 * @param {string} folder
 */
function joinFolder(folder) {
  const { count, lines } = countIn(folder);
  const names = Array.from({ length: count }, (_, number) => nameOf(number));
  const missing = names.filter((name) => !existsSync(join(folder, `${name}.list`)));
  if (missing.length > 0) throw new Fault(`${folder}: not listed: ${missing.join(" ")}`);
  names.forEach((name, number) => {
    const listing = openSync(join(folder, `${name}.list`), "r");
    const seam = readFileSync(join(folder, `${name}.seam`));
    joinPart(listing, { name, seam, lines, isLast: number === count - 1 }, writeOut);
    closeSync(listing);
  });
}

/**
 * Lists a capture that cannot be cut in one run, with its fault.
 * @param {string} program
 * @param {string} path
 * @param {string[]} options
 */
function listWhole(program, path, options) {
  const file = openSync(path, "r");
  if (fstatSync(file).isDirectory()) throw new Fault(`${path} is a folder`);
  const { error, status } = spawnSync(program, ["list", ...options], { stdio: [file, "inherit", "inherit"] });
  if (error) throw error;
  return status ?? 2;
}

/** The words before the capture, the capture, and the options of `port1 list` behind it. */
function splitWords() {
  const words = process.argv.slice(2);
  const isOption = (/** @type {number} */ at) => words[at].startsWith("-");
  let at = 0;
  while (at < words.length && isOption(at)) at += Object.keys(OPTIONS).some((name) => words[at] === `--${name}`) ? 2 : 1;
  return { own: words.slice(0, at), capture: words[at], options: words.slice(at + 1) };
}

/** What the command line asks for. */
function request() {
  const { own, capture, options } = splitWords();
  const { values } = wordsOf(OPTIONS, [], 0, own);
  const { cut, join: folder, jobs = availableParallelism(), overlap = OVERLAP } = values;
  if (cut !== undefined && folder !== undefined) throw misuse("argument --join: not allowed with argument --cut");
  if (folder !== undefined && capture !== undefined) throw misuse("--join takes no capture");
  if (folder === undefined && capture === undefined) throw misuse("there is no capture");
  const parts = values.parts ?? Math.min(6 * jobs, MOST_PARTS);
  if (parts > MOST_PARTS) throw misuse(`${parts} parts: ${MOST_PARTS} are the most`);
  return { cut, join: folder, parts, jobs, overlap, capture, options };
}

run(async () => {
  const asked = request();
  if (asked.join !== undefined) return joinFolder(asked.join);
  const program = programNamed("port1");
  const capture = captureToCut(program, asked.capture, asked.options);
  if (capture !== null) return asked.cut === undefined ? listParts(capture, asked) : cutTo(capture, asked.cut, asked);
  if (asked.cut === undefined) return listWhole(program, asked.capture, asked.options);
  throw new Fault(`${asked.capture} cannot be cut: see what \`port1 list\` says of it`);
});
