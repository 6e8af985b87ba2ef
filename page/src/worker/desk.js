import { remarksOf } from "../../../scripts/modules/dictionary/check.js";
import { readDictionary } from "../../../scripts/modules/dictionary/dictionary.js";
import { draftOf, draftOfSurvey, Survey } from "../../../scripts/modules/dictionary/draft.js";
import { Fault } from "../../../scripts/modules/fault.js";
import { findingsOf } from "../../../scripts/modules/findings/findings.js";
import { placeOfCause } from "../../../scripts/modules/findings/incidents.js";
import { FRAME, KINDS } from "../../../scripts/modules/listing/kinds.js";
import { NO_HEAD } from "../../../scripts/modules/listing/listing.js";
import { octetsOf } from "../../../scripts/modules/octets.js";
import { warningOf } from "../../../scripts/modules/recording/doubts.js";
import { channelsOf, isRecording } from "../../../scripts/modules/recording/forms.js";
import { unsureOf } from "../../../scripts/modules/recording/seams.js";
import { sessionOf } from "../../../scripts/modules/recording/session.js";
import { isWholeHead } from "../../../scripts/modules/recording/signals.js";
import { Bus } from "../../../scripts/modules/statistics/bus.js";
import { damageOf } from "../../../scripts/modules/statistics/damage.js";
import { DayTime } from "../../../scripts/modules/statistics/day-time.js";
import { repliesOf } from "../../../scripts/modules/statistics/replies.js";
import { report } from "../../../scripts/modules/statistics/report.js";
import { tableOf } from "../../../scripts/modules/statistics/table.js";
import { verdictOf } from "../../../scripts/modules/statistics/verdict.js";
import { countBefore } from "../engine/search.js";
import { found } from "./filter.js";
import { formOf, HEAD } from "./forms.js";
import { Lanes } from "./lanes.js";
import { warningsOfLevels } from "./levels.js";
import { read } from "./source.js";
import { structureOf } from "./structure.js";
import { clocklessOf, countsOf, namesOf, timesOf } from "./summary.js";

/** @typedef {import("../../../scripts/modules/dictionary/dictionary.js").Entry} Entry */
/** @typedef {import("../../../scripts/modules/listing/listing.js").Listing} Listing */
/** @typedef {import("../../../scripts/modules/recording/doubts.js").Warning} Warning */
/** @typedef {import("../../../scripts/modules/statistics/wrong.js").Known} Known */
/** @typedef {import("./main.js").Task} Task */
/** @typedef {import("./source.js").Bits} Bits */
/** @typedef {import("./source.js").RecordingSource} RecordingSource */
/** @typedef {import("./summary.js").Summary} Summary */

/**
 * What the page asks to be read, and how: the rate in bits a second, and the text of the dictionary or nothing. Of a
 * listing in a report it has the warnings of its recording; and when that was, where it is known.
 * @typedef {import("./source.js").Source & Asked} Job
 * @typedef {{ rate: number, dictionary: string, told?: string[], begin: Begin|null }} Asked
 */

/**
 * What a file is, and the channels of a recording.
 * @typedef {import("./forms.js").Found & { channels: string[] }} Found
 */

/**
 * Where a line is on the bus.
 *
 * @typedef {object} Places
 * @property {number} row its number in the listing
 * @property {number} first the place of its first bit
 * @property {number} past the place just after its last bit
 * @property {number} upTo the same, with the time to the answer of a command that has one
 * @property {number|null} reply bits to that answer
 * @property {string} text as `port1 list` writes it
 * @property {string} derived of a frame that no dictionary names, what its octets say; else empty
 */

/** @typedef {Places & { kind: import("../../../scripts/modules/listing/kinds.js").LineKind }} Line */

/**
 * The desk, as the page has it: each answer is a promise.
 * @typedef {{ [Name in Task]: (...words: Parameters<Desk[Name]>) => Promise<Awaited<ReturnType<Desk[Name]>>> }} FarDesk
 */

/**
 * When place 0 was: some seconds after a time as ISO 8601 has it.
 * @typedef {{ text: string, late: number }} Begin
 */

/** Where a draft judges, so much of the work is done once the file is read; then its bits are decoded again. */
const READ = 0.7;

/** How many lines of text are made at once. */
const STRIDE = 50000;

/** How much of a value change dump is read for its definitions, where they are longer than the head of a file. */
const DEFINITIONS = 1 << 22;

const CUT_HEAD = "a value change dump that is cut off within its definitions: save it again.";

/** What the worker has of the file that is shown, and all that the page asks of it. */
export class Desk {
  // What is known of a file, which is not asked for until one was read.
  listing = /** @type {Listing} */ (/** @type {unknown} */ (null));
  bus = /** @type {Bus} */ (/** @type {unknown} */ (null));
  lanes = /** @type {Lanes} */ (/** @type {unknown} */ (null));
  known = /** @type {Known} */ (/** @type {unknown} */ (null));
  /** @type {Bits|null} */
  bits = null;
  /** @type {number|null} of the recording in bits */
  end = null;

  /** @param {(progress: number) => void} tell the page which share of a file was read */
  constructor(tell) {
    this.tell = tell;
    /** @type {Uint32Array|null} */
    this.rows = null; // of the listing, where a query chose some
  }

  /**
   * What a file is, and the channels of a recording.
   * @param {import("../../../scripts/modules/octets.js").Part} file
   * @returns {Promise<Found>}
   */
  async lookAt(file) {
    const head = await octetsOf(file.slice(0, HEAD));
    const form = formOf(head);
    if (form.form === "csv") return { ...form, channels: channelsOf(head, "csv") };
    if (form.form === "session") return { ...form, channels: (await sessionOf(file)).names };
    if (form.form !== "vcd") return { ...form, channels: [] };
    const definitions = isWholeHead(head) ? head : await octetsOf(file.slice(0, DEFINITIONS));
    if (!isWholeHead(definitions)) return { form: "other", why: CUT_HEAD, channels: [] };
    return { ...form, channels: channelsOf(definitions, "vcd") };
  }

  /**
   * Reads a file, and answers what is known of it.
   * @param {Job} job
   * @returns {Promise<Summary>}
   */
  async load(job) {
    const own = entriesOf(job);
    const most = own === null && job.form !== "listing" ? READ : 1;
    const heard = (/** @type {number} */ done, /** @type {number} */ size) => this.tell(size === 0 ? most : (most * done) / size);
    const { bits, fault, notes, warnings, recorded = null, ...found } = await read({ ...job, entries: own }, heard);
    const draft = own === null && found.again !== null ? draftIn(found.listing) : null;
    const entries = draft === null ? own : readDictionary(draft);
    const listing = this.listingBy(draft === null ? null : entries, found);
    Object.assign(this, { listing, bits, rows: null, rate: job.rate, end: bits ? bits.length : job.end ?? null });
    const told = (job.told ?? []).map(warningOf);
    const dayTime = job.begin && new DayTime(job.begin.text, job.begin.late);
    this.bus = new Bus(job.rate, dayTime, unsureOf([...warnings, ...told]));
    this.bus.takeAll(listing.rows());
    const ofLevels = isRecording(job.form)
      ? warningsOfLevels(/** @type {RecordingSource} */ (job).channels, /** @type {Bits} */ (bits), listing)
      : [];
    /** @param {Warning} warning */
    const isNew = ({ sort, name }) => !warnings.some((warning) => warning.sort === sort && warning.name === name);
    const all = [...ofLevels.filter(isNew), ...warnings, ...told];
    const lacking = clocklessOf(all, { recorded, bits, rate: job.rate });
    return { ...this.summary(entries, all, fault), fault, notes, draft, lacking };
  }

  /**
   * The listing of what was read, by the entries of a draft if there is one.
   * @param {Entry[]|null} entries
   * @param {Pick<import("./source.js").Read, "listing"|"again">} found
   */
  listingBy(entries, { listing, again }) {
    if (entries === null || again === null) return listing;
    return again(entries, (share) => this.tell(READ + (1 - READ) * share));
  }

  /** @param {Entry[]|null} entries @param {Warning[]} warnings @param {string|null} fault */
  summary(entries, warnings, fault) {
    const { bus, listing, end } = this;
    this.known = { end, entries };
    const found = findingsOf(bus, listing, this.known);
    this.lanes = new Lanes(listing, found.gaps, namesOf(bus));
    const [first, past] = this.lanes.range;
    const verdict = verdictOf(bus, this.known, found.findings, warnings.length > 0 || fault !== null);
    return {
      ...{ count: listing.length, frames: bus.frames, damaged: bus.damaged, isOfTwo: this.lanes.isOfTwo, warnings },
      beside: bus.beside.counts.pieces,
      ...{ first: end === null ? first : 0, past: Math.max(past, end ?? 0), hasBits: this.bits !== null },
      ...{ findings: found.findings, stations: this.lanes.stations, verdict },
      ...{ counts: countsOf(bus, found.gapCount), table: tableOf(bus), damage: damageOf(bus) },
      replies: timesOf(repliesOf(bus)),
    };
  }

  /** The summary as text, as `bus-summary` writes it. */
  summaryText() {
    return report(this.bus, this.known);
  }

  /**
   * What is found in a dictionary, as `check-dictionary` tells it.
   * @param {string} text
   * @param {import("../../../scripts/modules/dictionary/schema.js").Schema} schema
   */
  check(text, schema) {
    return remarksOf(text, schema);
  }

  /** A first dictionary of what is on the bus. */
  draft() {
    return draftOf(this.listing.rows());
  }

  /** @param {number} first @param {number} past @param {number} bins @param {number|null} station */
  timeline(first, past, bins, station) {
    return this.lanes.between(first, past, bins, station);
  }

  /**
   * What the bits of some frames are.
   * @param {number[]} rows
   */
  structures(rows) {
    const { listing, bits } = this;
    return bits ? rows.map((row) => structureOf(listing, bits, row)) : [];
  }

  /**
   * The bits of a line, counted from 0.
   * @param {number} line
   * @param {number} first
   * @param {number} past
   */
  bitsBetween(line, first, past) {
    return this.bits ? this.bits.between(line, first, past) : [];
  }

  /**
   * Chooses lines of the listing.
   * @param {import("./filter.js").Query} query
   * @returns {Promise<{ count: number, idle: number }|null>} how many were found, and idle lines left out; null where
   *   another query came meanwhile
   */
  async choose(query) {
    this.query = query;
    const chosen = await found(this.listing, query, () => this.query !== query);
    if (this.query !== query) return null;
    this.rows = chosen.rows;
    return { count: chosen.rows ? chosen.rows.length : this.listing.length, idle: chosen.idle };
  }

  /**
   * Some of the chosen lines.
   * @param {number} from
   * @param {number} count
   */
  lines(from, count) {
    const most = this.rows ? this.rows.length : this.listing.length;
    /** @type {Line[]} */
    const lines = [];
    for (let at = from; at < Math.min(from + count, most); at++) {
      const row = this.rows ? this.rows[at] : at;
      lines.push({ ...this.placesOf(row), kind: KINDS[this.listing.kinds[row]] });
    }
    return lines;
  }

  /**
   * Where a line stands among those chosen: its place, or that of the next one.
   * @param {number} row
   */
  positionOf(row) {
    const { rows } = this;
    return rows ? countBefore(rows.length, (at) => rows[at] < row) : row;
  }

  /**
   * Where a line is on the bus.
   * @param {number} row
   * @returns {Places}
   */
  placesOf(row) {
    const { listing } = this;
    const text = listing.text(row);
    const [first, past, reply] = [listing.firsts[row], listing.pasts[row], listing.replyBits(row)];
    // Of a frame that no dictionary names, what its octets say.
    const isBare = listing.kinds[row] === FRAME && listing.heads[row] === NO_HEAD && listing.types[row] >= 0;
    const derived = isBare ? `station ${listing.stations[row]} type ${listing.types[row]}` : "";
    return { row, first, past, upTo: past + (reply ?? 0), reply, text, derived };
  }

  /**
   * The first line that begins at a place or after it.
   * @param {number} place
   */
  rowFrom(place) {
    const { firsts, length } = this.listing;
    let best = -1;
    for (let at = 0; at < length; at++) {
      if (firsts[at] >= place && (best < 0 || firsts[at] < firsts[best])) best = at;
    }
    return best < 0 ? length - 1 : best;
  }

  /**
   * Where a cause of an incident is, null where that is not known.
   * @param {string} cause
   * @param {number} first
   * @param {number} past
   */
  placeOfCause(cause, first, past) {
    return placeOfCause(this.listing, cause, { first, past });
  }

  /** The whole listing in pieces, as `port1 list` writes it. */
  texts() {
    const texts = [];
    for (let from = 0; from < this.listing.length; from += STRIDE) {
      texts.push(this.listing.textOf(from, Math.min(this.listing.length, from + STRIDE)));
    }
    return texts;
  }
}

/**
 * A dictionary drafted from what is in a listing, null where no frame has a type.
 * @param {Listing} listing
 */
function draftIn(listing) {
  const survey = new Survey();
  survey.takeSome(listing.rows());
  return survey.types.size === 0 ? null : draftOfSurvey(survey);
}

/**
 * The entries of the dictionary, if there is one. One beside a listing only says what was judged.
 * @param {Job} job
 */
function entriesOf({ dictionary, form }) {
  try {
    return dictionary ? readDictionary(dictionary) : null;
  } catch (fault) {
    if (form === "listing" && fault instanceof Fault) return null;
    throw fault;
  }
}
