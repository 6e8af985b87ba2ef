/** Cuts a packed capture into parts whose listings, one after the other, are that of the whole. */

import { spawn, spawnSync } from "node:child_process";
import { closeSync, openSync, readSync, statSync } from "node:fs";
import { resolve } from "node:path";
import { Fault } from "../fault.js";
import { FORMS, HEAD, countOf, headOf } from "./forms.js";

/** The options of `port1 list` that leave lines out, and all that have a value. */
const FILTERS = ["--station", "--type", "--kind"];
const VALUED = ["--dict", "--origin", ...FILTERS];

/** The kinds of the lines that stand at the end of a listing alone, and how many these are at most. */
const ENDING = ["open", "pending"];
const MOST_ENDING = 3;

const MOST_PLACES = 2n ** 60n;

/** @typedef {{ first: number, past: number, seam: Buffer }} Part octets of the body; what the part before lists, too */

/** @param {string} word of a shell's command */
const quoted = (word) => (/^[\w@%+=:,./-]+$/.test(word) ? word : `'${word.replaceAll("'", `'"'"'`)}'`);

/** A packed capture without fault, in a file: its places, and what `port1 list` is told of it. */
export class Capture {
  /**
   * @param {string} program
   * @param {string} path
   * @param {1|2} lines
   * @param {number} places
   * @param {{ origin: bigint, filters: string[], others: string[] }} options
   */
  constructor(program, path, lines, places, options) {
    this.program = program;
    this.path = path;
    this.lines = lines;
    this.places = places;
    this.options = options;
    this.form = FORMS[lines];
    this.inOctet = 8 / lines; // places
    this.octets = Math.ceil(places / this.inOctet);
  }

  /** @param {number} first @param {number} past octets of the body, to which this is the head */
  headOf(first, past) {
    return headOf(this.form, Math.min(this.places, this.inOctet * past) - this.inOctet * first);
  }

  /**
   * The shell's command that lists a part.
   * @param {Part} part
   */
  commandOf({ first, past }, program = this.program) {
    const head = [...this.headOf(first, past)].map((octet) => `\\${octet.toString(8).padStart(3, "0")}`).join("");
    const body = `tail -c +${HEAD + 1 + first} ${quoted(resolve(this.path))} | head -c ${past - first}`;
    return `{ printf '${head}'; ${body}; } |\n    ${[program, ...this.words(first)].map(quoted).join(" ")}`;
  }

  /** @param {number} first octet from which it lists @param {string[]} [filters] */
  words(first, filters = this.options.filters) {
    return ["list", ...this.options.others, ...filters, `--origin=${this.options.origin + BigInt(this.inOctet * first)}`];
  }
}

/**
 * A listing of so many lines of the bus without the lines that stand at its end alone.
 * @param {Buffer} listing
 * @param {number} lines
 */
function withoutEnding(listing, lines) {
  const isEnding = (/** @type {Buffer} */ line) => ENDING.includes(line.toString("latin1").split(/\s/)[1 + lines]);
  const ending = lastLines(listing).filter(isEnding);
  return listing.subarray(0, listing.length - ending.reduce((sum, { length }) => sum + length, 0));
}

/**
 * The last lines of a listing, as many as can stand at its end alone, with their ends.
 * @param {Buffer} listing
 */
function lastLines(listing) {
  const lines = [];
  for (let past = listing.length; past > 0 && lines.length < MOST_ENDING; ) {
    const begin = past < 2 ? 0 : listing.lastIndexOf("\n", past - 2) + 1;
    lines.push(listing.subarray(begin, past));
    past = begin;
  }
  return lines;
}

/**
 * How many octets the lines have that stand at the end of a listing alone.
 * @param {number} file
 * @param {number} size
 * @param {number} lines
 */
export function endingOctets(file, size, lines) {
  for (let count = 4096; ; count *= 2) {
    const tail = octetsAt(file, Math.max(0, size - count), Math.min(size, count));
    if (count < size && tail.toString("latin1").split("\n").length <= MOST_ENDING + 1) continue;
    return tail.length - withoutEnding(tail, lines).length;
  }
}

/** @param {number} file @param {number} from @param {number} count */
export function octetsAt(file, from, count) {
  const octets = Buffer.alloc(count);
  let at = 0;
  for (let read = 1; at < count && read > 0; at += read) read = readSync(file, octets, at, count - at, from + at);
  return octets.subarray(0, at);
}

/**
 * How many lines a capture has that `port1 list` reads with these options; none where it takes none.
 * @param {string} program
 * @param {string[]} options
 */
function linesTaken(program, options) {
  return /** @type {const} */ ([1, 2]).find((lines) => {
    const ran = spawnSync(program, ["list", ...options], { input: headOf(FORMS[lines], 0) });
    if (ran.error && ran.error.code !== "EPIPE") throw ran.error; // it may end without having read
    return ran.status === 0 && ran.stdout.length + ran.stderr.length === 0;
  });
}

/**
 * Of options that `port1 list` takes: the origin, those that leave lines out, and the others.
 * @param {string[]} options
 */
function splitOptions(options) {
  const found = { origin: 0n, filters: /** @type {string[]} */ ([]), others: /** @type {string[]} */ ([]) };
  for (let at = 0; at < options.length; at++) {
    const word = options[at];
    const name = word.split("=", 1)[0];
    const isValued = VALUED.includes(name);
    const value = isValued && name === word ? options[++at] : word.slice(name.length + 1);
    if (name === "--origin") found.origin = BigInt(value);
    else if (isValued) (FILTERS.includes(name) ? found.filters : found.others).push(`${name}=${value}`);
    else if (word !== "--") found.others.push(word);
  }
  return found;
}

/**
 * The capture of a file, if neither it nor the options have a fault.
 * @param {string} program
 * @param {string} path
 * @param {string[]} words
 */
export function captureToCut(program, path, words) {
  const lines = linesTaken(program, words);
  if (lines === undefined || !isFile(path)) return null;
  const file = openSync(path, "r");
  try {
    const places = countOf(FORMS[lines], octetsAt(file, 0, HEAD));
    const options = splitOptions(words);
    const capture = new Capture(program, path, lines, places, options);
    const body = statSync(path).size - HEAD;
    if (body !== capture.octets || options.origin + BigInt(places) > MOST_PLACES) return null;
    const used = (places * lines) % 8;
    return used > 0 && octetsAt(file, HEAD + body - 1, 1)[0] >> used !== 0 ? null : capture;
  } catch (fault) {
    if (fault instanceof Fault) return null;
    throw fault;
  } finally {
    closeSync(file);
  }
}

/** @param {string} path */
function isFile(path) {
  try {
    return statSync(path).isFile();
  } catch {
    return false;
  }
}

/**
 * What the octets from `start` to `cut` list, without the lines that stand at the end alone.
 * @param {Capture} capture
 * @param {number} start
 * @param {number} cut
 * @param {string[]} filters
 * @returns {Promise<Buffer>}
 */
function seamOf(capture, start, cut, filters) {
  const file = openSync(capture.path, "r");
  const given = Buffer.concat([capture.headOf(start, cut), octetsAt(file, HEAD + start, cut - start)]);
  closeSync(file);
  return new Promise((done, fail) => {
    const child = spawn(capture.program, capture.words(start, filters), { stdio: ["pipe", "pipe", "inherit"] });
    /** @type {Buffer[]} */
    const pieces = [];
    child.stdout.on("data", (piece) => pieces.push(piece));
    child.on("error", fail);
    child.on("close", (status) => {
      if (status === 0) done(withoutEnding(Buffer.concat(pieces), capture.lines));
      else fail(new Fault(`octets ${start} to ${cut}: not listed`));
    });
    child.stdin.on("error", () => undefined); // it has ended, which its status tells
    child.stdin.end(given);
  });
}

/**
 * Where a part begins that is to be cut from the one before it at this octet, and its seam; none where it would begin no
 * later than that one.
 *
 * The seam has something besides idle lines, of two lines on each. Such a piece stands after a flag, so that all that is
 * listed after it is the same as in the whole capture; and the last of them is the last on the bus, so that the same
 * command waits, or none.
 * @param {Capture} capture
 * @param {number} before
 * @param {number} cut
 * @param {number} overlap octets, at first
 */
async function findStart(capture, before, cut, overlap) {
  const { filters } = capture.options;
  for (let start = cut - overlap; start > before; overlap *= 2, start = cut - overlap) {
    const seam = await seamOf(capture, start, cut, []);
    const rows = seam.toString("latin1").split("\n").filter((line) => line !== "").map((line) => line.split(" "));
    const listed = rows.filter((words) => words[1 + capture.lines] !== "idle");
    const lines = new Set(listed.map(([line]) => line)).size;
    if (listed.length === 0 || lines < capture.lines) continue;
    return { start, seam: filters.length > 0 ? await seamOf(capture, start, cut, filters) : seam };
  }
  return null;
}

/** @param {number} whole @param {number} share @param {number} of */
const partOf = (whole, share, of) => Number((BigInt(whole) * BigInt(share)) / BigInt(of));

/**
 * The parts: each after the other smaller, or for another engine all of about one size.
 * @param {Capture} capture
 * @param {number} parts
 * @param {number} overlap
 * @param {boolean} isEven
 * @returns {AsyncGenerator<Part>}
 */
export async function* partsOf(capture, parts, overlap, isEven) {
  const octets = Math.floor(capture.places / capture.inOctet);
  let [first, seam] = [0, Buffer.alloc(0)];
  for (let number = 1; number < parts; number++) {
    const behind = partOf(octets, (parts - number) ** 2, parts ** 2);
    const cut = isEven ? partOf(octets, number, parts) : octets - behind;
    if (cut === capture.octets) break; // the last parts would be smaller than an octet
    const found = await findStart(capture, first, cut, overlap);
    if (found === null) continue;
    yield { first, past: cut, seam };
    [first, seam] = [found.start, found.seam];
  }
  yield { first, past: capture.octets, seam };
}
