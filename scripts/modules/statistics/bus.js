import { isUnfit } from "../listing/kinds.js";
import { ANSWER } from "../port1.js";
import { Alone } from "./alone.js";
import { Answers } from "./answers.js";
import { Beside } from "./beside.js";
import { Commands } from "./commands.js";
import { Counts, Kinds } from "./kinds.js";
import { Tally } from "./pieces.js";
import { Rests } from "./rests.js";
import { Slots } from "./slots.js";
import { unitsOf } from "./units.js";

/** @typedef {import("../listing/listing.js").Row} Row */

const newCommands = () => new Commands();

/** All that is counted of a listing, in memory that does not grow with it. Rows are not to change once taken. */
export class Bus {
  /**
   * @param {number} rate bits a second, a whole number above 0
   * @param {import("./day-time.js").DayTime|null} [dayTime] when place 0 was, so that times of day are told
   * @param {import("./beside.js").Stretch[]} [unsure] what of the recording is not to be blamed on the bus
   */
  constructor(rate, dayTime = null, unsure = []) {
    this.rate = rate;
    this.dayTime = dayTime;
    this.rows = 0;
    this.first = 0; // the place where the listing begins
    this.past = 0;
    this.lines = 1;
    this.frames = 0;
    this.named = false; // whether a dictionary gave a frame its name, or said that it has none
    this.damage = new Tally();
    this.slots = new Slots(rate);
    /** @type {Kinds<Commands>} */
    this.commands = new Kinds();
    this.backward = 0; // commands on the second line
    this.answersOnFirst = 0;
    this.strays = new Counts();
    this.pending = new Counts();
    /** @type {number|null} */
    this.waiting = null; // the place after the command that waits at the end
    this.beside = new Beside(unsure);
    this.rests = new Rests(rate, this.beside);
    this.answers = new Answers();
    this.alone = new Alone();
    this.misfits = { length: new Counts(), unknown: new Counts() }; // frames without an entry that fits
    /** @type {Row|null} */
    this.before = null; // the line that settles a verdict: the last one that is no stray
  }

  get units() {
    return unitsOf(this.rate, this.dayTime, this.first);
  }

  /** How many damaged pieces there are. */
  get damaged() {
    return this.damage.total;
  }

  /** Whether the last frame is the first of all: where it is a stray, its command was sent before the listing begins. */
  get answersWhatCameBefore() {
    return this.frames === 1 && this.damaged === 0;
  }

  /**
   * @param {number} place
   * @param {number} frames that begin there
   * @returns {import("./commands.js").Moment}
   */
  moment(place, frames) {
    const framesBefore = this.frames;
    return { place, damage: this.damage.now(), framesBefore, framesAfter: framesBefore + frames };
  }

  /** @param {Row} row */
  commandsOf(row) {
    return this.commands.at(row.station, row.type, newCommands);
  }

  /** @param {Row} row */
  takeFrame(row) {
    if (row.name !== "") {
      this.named = true;
      if (isUnfit(row.name)) this.misfits[row.name === "length" ? "length" : "unknown"].add(row.station, row.type);
    }
    if (row.type !== null && row.type >= ANSWER && row.line === 1) this.answersOnFirst += 1;
    if (row.type !== null && row.type < ANSWER) {
      if (row.line === 2) {
        this.backward += 1;
      } else {
        this.commandsOf(row).send(row.name, this.moment(row.first, 1), this.beside);
      }
    }
    this.frames += 1;
  }

  /** @param {Row} row */
  takeDamage(row) {
    this.damage.add(row.line, row.cause || row.kind);
    this.slots.add(row.first);
  }

  /**
   * Counts what a row says, but not where the listing begins and ends.
   * @param {Row} row
   * @param {Row|null} before the row that settles it where it is a verdict
   */
  take(row, before) {
    switch (row.kind) {
      case "frame":
        this.takeFrame(row);
        break;
      case "answered":
      case "late":
      case "missing":
      case "spoilt":
        this.commandsOf(row).judge(row.kind, row, before);
        break;
      case "stray":
        if (!this.answersWhatCameBefore) this.strays.add(row.station, row.type);
        break;
      case "pending":
        this.pending.add(row.station, row.type);
        this.waiting = row.past;
        break;
      case "idle":
      case "open":
        break;
      default:
        this.takeDamage(row);
    }
  }

  /**
   * Counts the next rows of a listing. What is counted so far can be told at any time.
   * @param {Iterable<Row>} rows
   */
  takeSome(rows) {
    for (const row of rows) {
      if (this.rows === 0 || row.first < this.first) this.first = row.first;
      this.past = Math.max(this.past, row.past);
      this.lines = row.line === null ? 1 : 2;
      const rest = this.rests.take(row, this.rows);
      if (rest > 0) this.commands.each((commands) => (commands.rested = Math.max(commands.rested, rest)));
      const isBeside = this.beside.takes(row, this.past);
      if (!isBeside) this.answers.take(row, this.rows, this.damaged);
      if (!isBeside) this.alone.take(row, this.rows, this.damaged);
      this.rows += 1;
      if (!isBeside) this.take(row, this.before);
      if (row.kind !== "stray") this.before = row;
    }
  }

  /** Ends a listing, and lets go of its last row. */
  end() {
    this.before = null;
  }

  /**
   * Counts a whole listing.
   * @param {Iterable<Row>} rows
   */
  takeAll(rows) {
    this.takeSome(rows);
    this.end();
  }
}
