import { spawn } from "node:child_process";
import { closeSync, mkdirSync, openSync, readdirSync, rmSync, statSync, writeFileSync } from "node:fs";
import { join } from "node:path";
import { readDictionary } from "../dictionary/dictionary.js";
import { ANSWER, RATE } from "../port1.js";
import { Bus } from "../statistics/bus.js";
import { DayTime } from "../statistics/day-time.js";
import { report } from "../statistics/report.js";
import { piecesOf } from "../system/facts.js";
import { rowsOfInput } from "../system/input.js";
import { commandNamed, page } from "../system/program.js";
import { wordsOfList } from "./decoder.js";
import { DISK } from "./disk.js";
import { captureOf, octetsBefore } from "./forms.js";
import { savedOf } from "./incidents.js";
import { holesOf, nearestOf } from "./pieces.js";
import { roomIn } from "./ring.js";
import { iso } from "./wall.js";
import { titleOf } from "./words.js";

/** @typedef {import("./incidents.js").Incident} Incident */
/** @typedef {ReturnType<import("./incidents.js").Incidents["recordOf"]>} Told what is told of one */
/** @typedef {import("./pieces.js").Piece} Piece */

/** @typedef {{ wall: string, place: number, seconds: number }} Missing bits that are not there, as they are told */

/**
 * What became of an incident that was to be saved: the name of its folder, if it has one, and what that lacks.
 * @typedef {{ saved: string|null, holes: Missing[] }} Saved
 */

/** What a folder of an incident takes beside its bits, as a multiple of these and in octets. */
const [BESIDE, PAGE] = [2, 3 << 20];

/** A flag, and some bits before it. */
const BEFORE_COMMAND = 24;

/**
 * Runs a program from a file to a file, or to none.
 * @param {string} program
 * @param {string[]} words
 * @param {string} input
 * @param {string|null} output
 * @returns {Promise<void>}
 */
function runOn(program, words, input, output) {
  const [source, sink] = [openSync(input, "r"), output === null ? "ignore" : openSync(output, "w")];
  const child = spawn(program, words, { stdio: [source, sink, "ignore"], detached: true });
  closeSync(source);
  if (typeof sink === "number") closeSync(sink);
  return new Promise((done, fail) => {
    const end = (/** @type {number|null} */ status) => fail(new Error(`${program} ended with ${status}`));
    child.on("error", fail);
    child.on("close", (status) => (status === 0 ? done(undefined) : end(status)));
  });
}

/**
 * The octets of a folder.
 * @param {string} folder
 */
const sizeOf = (folder) => readdirSync(folder).reduce((sum, name) => sum + statSync(join(folder, name)).size, 0);

/** Removes a folder, where it can: what the run before began to save may still be written there. */
function removed(/** @type {string} */ folder) {
  try {
    rmSync(folder, { recursive: true, force: true });
  } catch {
    // the next run removes it
  }
}

/**
 * The cause in the name of a folder: what stands after its time.
 * @param {string} name
 */
const causeOf = (name) => name.slice(name.indexOf("Z-") + 2);

/**
 * The words of a listing's first command, if it has one: where a cut before it makes no stray.
 * @param {string} listing
 */
async function firstCommand(listing) {
  for await (const rows of rowsOfInput(piecesOf(listing, 1 << 16))) {
    for (const row of rows) {
      if (row.kind === "frame" && row.line === 1 && row.type !== null && row.type < ANSWER) return row.first;
    }
  }
  return null;
}

/**
 * What is missing, in sentences.
 * @param {Missing[]} holes
 */
const sentencesOf = (holes) =>
  holes.map(({ wall, seconds }) => `Bits are missing: ${seconds.toFixed(3)} s from ${wall} on.\n`).join("");

/** Saves the bits around incidents, each in a folder that is there whole or not at all. */
export class Saver {
  /**
   * @param {string} folder
   * @param {import("./ring.js").Ring} ring
   * @param {{ program: string, form: import("./forms.js").Form, dictionary: () => string,
   *   disk?: import("./disk.js").Disk,
   *   limits: { before: number, after: number, longest: number, keep: number, floor: number } }} decoding
   */
  constructor(folder, ring, decoding) {
    this.folder = folder;
    this.ring = ring;
    this.decoding = decoding;
    this.limits = decoding.limits;
    this.disk = decoding.disk ?? DISK;
    mkdirSync(folder, { recursive: true });
    const halves = readdirSync(folder).filter((name) => name.startsWith("."));
    halves.forEach((name) => removed(join(folder, name)));
  }

  /** @param {Incident} incident */
  nameOf({ first, zero, causes }) {
    const stamp = iso(zero + first / RATE).replaceAll(":", "");
    return `${stamp}-${Object.keys(causes)[0].replace(/[ /]/g, "-")}`;
  }

  /**
   * What is missing of an incident's places: the end of an earlier run is where its bits end.
   * @param {Incident} incident
   * @param {Piece[]} found
   * @returns {Missing[]}
   */
  holesIn(incident, found) {
    const [first, past] = savedOf(incident, this.limits);
    const end = incident.run === this.ring.run ? this.ring.past : found.at(-1)?.past ?? past;
    const told = (/** @type {import("./pieces.js").Hole} */ hole) =>
      ({ wall: iso(incident.zero + hole.first / RATE), place: hole.first, seconds: (hole.past - hole.first) / RATE });
    return holesOf(found, first, Math.min(past, end)).map(told);
  }

  /**
   * Whether the disk has so much room; where it has not, old folders go that --keep would not have for long.
   * @param {number} room
   */
  hasRoom(room) {
    const has = () => roomIn(this.folder) >= this.limits.floor + room;
    if (!has()) this.prune(Math.min(room, this.limits.keep), "");
    return has();
  }

  /**
   * Saves an incident.
   * @param {Incident} incident
   * @param {Told} record
   * @returns {Promise<Saved>} whose name is null where there is no room, or none of the bits is there any more
   */
  async save(incident, record) {
    const found = this.ring.read(this.decoding.form, incident.run, ...savedOf(incident, this.limits));
    const holes = this.holesIn(incident, found);
    const room = BESIDE * found.reduce((sum, { octets }) => sum + octets.length, 0) + PAGE;
    if (found.length === 0 || !this.hasRoom(room)) return { saved: null, holes };
    const [name, fresh] = [this.nameOf(incident), join(this.folder, `.${incident.id}-${process.pid}`)];
    try {
      rmSync(fresh, { recursive: true, force: true });
      mkdirSync(fresh);
      await this.fill(fresh, incident, found, { ...record, ...(holes.length > 0 && { holes }) });
      this.prune(sizeOf(fresh), name);
      await this.disk.putFolder(fresh, join(this.folder, name));
      return { saved: name, holes };
    } catch (fault) {
      rmSync(fresh, { recursive: true, force: true });
      throw fault;
    }
  }

  /**
   * Writes the files of a folder. What is listed is the piece that has most of the incident; the others stand beside,
   * named by their places. The bits begin at a command, or its answer would be a stray.
   * @param {string} fresh
   * @param {Incident} incident
   * @param {Piece[]} found
   * @param {Told & { holes?: Missing[] }} record
   */
  async fill(fresh, { first, past, zero }, found, record) {
    const { form } = this.decoding;
    const main = nearestOf(found, first, past);
    const { octets, place } = main;
    found.filter((piece) => piece !== main).forEach((piece) => this.putBeside(fresh, piece));
    const path = (/** @type {string} */ name) => join(fresh, name);
    const [listing, dictionary, begin] = [path("listing.txt"), this.decoding.dictionary(), iso(zero)];
    await this.list(fresh, octets, place);
    const head = Math.min((await firstCommand(listing)) ?? place, first);
    const { at, passed } = octetsBefore(form, octets, Math.max(0, head - BEFORE_COMMAND - place));
    if (at > 0) await this.list(fresh, octets.subarray(at), place + passed);
    const about = { ...record, begin, origin: at > 0 ? place + passed : place };
    writeFileSync(path("incident.json"), `${JSON.stringify(about)}\n`);
    writeFileSync(path("cabinet.toml"), `${dictionary}\n`);
    const bus = new Bus(RATE, new DayTime(begin));
    for await (const rows of rowsOfInput(piecesOf(listing, 1 << 16))) bus.takeSome(rows);
    bus.end();
    const summary = report(bus, { end: null, entries: readDictionary(dictionary) });
    writeFileSync(path("summary.txt"), `${sentencesOf(record.holes ?? [])}${summary}`);
    const packets = [commandNamed("list-to-pcap"), "--begin", begin, String(RATE), path("frames.pcapng")];
    await runOn(process.execPath, packets, listing, null);
    if (page() === null) return;
    const words = ["--begin", begin, "--dictionary", path("cabinet.toml"), titleOf(about)];
    await runOn(process.execPath, [commandNamed("list-to-page"), ...words], listing, path("report.html"));
  }

  /**
   * Writes a piece that is not listed.
   * @param {string} fresh
   * @param {Piece} piece
   */
  putBeside(fresh, { octets, place }) {
    writeFileSync(join(fresh, `bits-${place}.ts2`), captureOf(this.decoding.form, octets));
  }

  /**
   * Writes the bits and their listing.
   * @param {string} fresh
   * @param {Uint8Array} octets
   * @param {number} place
   */
  async list(fresh, octets, place) {
    const { program, form, dictionary } = this.decoding;
    const [bits, listing] = ["bits.ts2", "listing.txt"].map((name) => join(fresh, name));
    writeFileSync(bits, captureOf(form, octets));
    await runOn(program, wordsOfList(form, dictionary(), place), bits, listing);
  }

  /**
   * Makes room for a folder, which stays however great it is: the oldest ones go first, but the first one of each cause
   * stays as long as there are others.
   * @param {number} room
   * @param {string} own the name of the folder
   */
  prune(room, own) {
    const isOther = (/** @type {string} */ name) => !name.startsWith(".") && name !== own;
    const folders = readdirSync(this.folder).filter(isOther).sort();
    const sizes = new Map(folders.map((name) => [name, sizeOf(join(this.folder, name))]));
    const causes = folders.map(causeOf);
    const firsts = new Set(folders.filter((_, at) => causes.indexOf(causes[at]) === at));
    const order = [...folders.filter((name) => !firsts.has(name)), ...folders.filter((name) => firsts.has(name))];
    let total = [...sizes.values()].reduce((sum, size) => sum + size, 0);
    for (const name of order) {
      if (total + room <= this.limits.keep) return;
      this.disk.remove(join(this.folder, name));
      total -= sizes.get(name) ?? 0;
    }
  }
}
