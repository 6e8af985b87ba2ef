import { join } from "node:path";
import { RATE } from "../port1.js";
import { called } from "./call.js";
import { ListProgram } from "./decoder.js";
import { DISK } from "./disk.js";
import { TextPacker } from "./forms.js";
import { Incidents } from "./incidents.js";
import { Journal } from "./journal.js";
import { onceAMinute } from "./limits.js";
import { onlyBegun, read, untold } from "./memory.js";
import { metricsOf } from "./metrics.js";
import { judgedRest } from "./rest.js";
import { Ring } from "./ring.js";
import { Saver } from "./saver.js";
import { SURE, Triggers } from "./triggers.js";
import { CLOCKS, iso, rounded, zeroAt } from "./wall.js";

/** How often what is known is written down, in seconds, and of bits that come faster; incidents that wait, at most. */
const [KEEP, KEEP_BITS, MOST_WAITING] = [10, 60 * RATE, 4];

/** @typedef {import("./limits.js").Asked} Asked */
/** @typedef {import("../listing/listing.js").Row} Row */

/** A watch of a bus: what comes goes to the ring and to `port1`, whose lines are judged. */
export class Watch {
  lost = 0;
  unsaved = 0;
  saving = Promise.resolve();
  /** When what is known was written down last, in seconds, where, and whether it had a loss. */
  kept = { time: 0, place: 0, isLost: false };
  keepBits = KEEP_BITS;
  known = { number: 0, text: "" }; // what is to be written down, and how often that was so

  decoder = /** @type {ListProgram} */ (/** @type {unknown} */ (null)); // until it begins

  /** @param {Asked} asked */
  constructor(asked) {
    this.asked = asked;
    this.wall = asked.wall;
    this.dictionary = asked.dictionary;
    const { disk = DISK } = asked;
    this.disk = disk;
    disk.makeFolder(asked.folder);
    this.state = this.path("state.json");
    this.complain = onceAMinute(asked.warn);
    this.old = read(this.state, this.complain, disk);
    this.journal = new Journal(this.path("incidents.jsonl"), asked.write, this.complain, disk);
    this.packer = new TextPacker(asked.form);
    const { ring: most, floor } = asked.limits;
    const missed = (/** @type {import("./pieces.js").Hole} */ hole) => this.missed(hole);
    this.ring = new Ring(this.path("ring"), 0, { most, floor, warn: this.complain, missed, disk });
    this.number = 1 + Math.max(this.old.run, this.ring.lastRun, this.journal.lastRun);
    this.ring.run = this.number;
    this.saver = new Saver(this.path("incidents"), this.ring, { ...asked, dictionary: () => this.dictionary });
    this.incidents = new Incidents(this.number, asked.limits, this.office());
    this.triggers = new Triggers(this.incidents, asked.gaps);
  }

  /** @param {string} name */
  path(name) {
    return join(this.asked.folder, name);
  }

  /**
   * What incidents need of the watch.
   * @returns {import("./incidents.js").Office}
   */
  office() {
    return {
      zero: (place) => zeroAt(this.wall, place),
      settled: () => this.wall.settled,
      keep: () => this.keep(),
      log: (record) => this.journal.log(record),
      save: (incident) => {
        this.saving = this.saving.then(() => this.save(incident));
      },
    };
  }

  /** @param {number} place */
  timeOf(place) {
    return zeroAt(this.wall, place) + place / RATE;
  }

  /** @param {string} event @param {Record<string, unknown>} [more] */
  log(event, more = {}) {
    this.journal.log({ event, wall: iso(this.wall.now()), run: this.number, place: this.packer.places, ...more });
  }

  /** Begins: with what the run before knew, and did not tell. */
  async begin() {
    const last = this.old.wall === null ? this.journal.told().at(-1)?.wall : iso(this.old.wall);
    const since = last === undefined ? {} : { since: last };
    this.log("start", since);
    const { kinds, incidents, tally, past } = await this.rest();
    const isNear = past !== null && Math.abs(this.wall.now() - past) <= this.asked.limits.after;
    this.triggers.restore(kinds, isNear);
    this.incidents.seam(0);
    this.incidents.tally = tally;
    const entries = this.journal.told();
    const left = untold(incidents, entries.filter(({ event }) => event === "incident"));
    const cut = this.old.isOver ? this.old.incidents.before : [];
    this.incidents.takeOver([...left, ...onlyBegun(entries, left)], cut);
    this.keep();
    await this.decode(0);
  }

  /** What the run before knew, with what it had not judged when it was killed. */
  async rest() {
    const { old } = this;
    const known = { kinds: old.triggers.kinds, incidents: old.incidents, tally: new Map(), past: old.wall };
    if (old.isOver) return known;
    try {
      return await judgedRest(old, this.ring, this.asked, this.journal);
    } catch (fault) {
      this.complain(`the bits before the kill: ${/** @type {Error} */ (fault).message}`);
      return known;
    }
  }

  /**
   * Starts `port1` for what comes from a place on.
   * @param {number} place
   */
  async decode(place) {
    const hear = (/** @type {Iterable<Row>} */ rows) => this.triggers.hear(rows);
    this.decoder = new ListProgram(this.asked.program, this.asked.form, this.dictionary, place, hear);
    await this.decoder.begin();
  }

  /** Writes down what outlives the watch. */
  keep(isOver = false) {
    const { zero, zeros } = this.wall.atEnd;
    const zeroOf = (/** @type {number} */ place) => zeroAt({ zero, zeros }, place);
    const triggers = this.triggers.kept((place) => zeroOf(place) + place / RATE);
    const [wall, incidents] = [this.wall.now(), this.incidents.kept(zeroOf, this.unsettled())];
    /** @type {import("./memory.js").Kept} */
    const known = { run: this.number, isOver, wall, zero, zeros, triggers, incidents };
    this.ring.sync();
    this.known = { number: this.known.number + 1, text: JSON.stringify(known) };
    const { number } = this.known;
    const tell = (/** @type {Error} */ fault) => this.complain(`the state: ${fault.message}`);
    this.disk.later(() => this.putKnown(number), tell);
  }

  /**
   * Puts what is known on disk, unless that is out of date: what is newer comes later, and after what it goes with.
   * @param {number} number
   */
  async putKnown(number) {
    if (number === this.known.number) await this.disk.put(this.state, this.known.text);
  }

  /**
   * Takes text that has come.
   * @param {Buffer} text
   */
  async take(text) {
    const { packer } = this;
    const place = packer.begin;
    const octets = packer.take(text);
    if (octets.length > 0) this.ring.add(octets, place, packer.begin);
    await this.decoder.feed(text, packer.places);
    this.look(this.wall.take(packer.places));
    this.judge();
    if (this.incidents.waiting.length > MOST_WAITING) await this.saving;
  }

  /**
   * Tells what the clocks say.
   * @param {number} lost seconds of input
   */
  look(lost) {
    const set = this.wall.set();
    if (set !== 0) this.log("clock set", { seconds: rounded(set) });
    this.lose(lost);
  }

  /** @param {number} lost seconds of input */
  lose(lost) {
    if (lost === 0) return;
    this.lost += lost;
    const place = this.wall.zeros.at(-1)?.place ?? 0;
    this.incidents.seam(place);
    this.log("input lost", { wall: iso(this.timeOf(place)), place, seconds: rounded(lost) });
  }

  /** The place, if there is one, after which it is not known yet whether input was lost. */
  unsettled() {
    const { settled } = this.wall;
    return settled < this.packer.places ? [settled] : [];
  }

  /** Nothing more comes by which it is known whether input was lost: what has come decides. */
  settle() {
    this.unsettled().forEach((place) => this.incidents.seam(place));
    this.lose(this.wall.settle());
  }

  /**
   * Tells what the ring lacks.
   * @param {import("./pieces.js").Hole} hole
   */
  missed({ first, past }) {
    const seconds = rounded((past - first) / RATE);
    this.log("bits not kept", { wall: iso(this.timeOf(first)), place: first, seconds });
  }

  /** Judges by what `port1` has decided, never by what it was fed. */
  judge() {
    const { mark } = this.decoder;
    this.triggers.tick(mark - SURE);
    this.incidents.tick(mark);
    const { kept } = this;
    const [time, isLost] = [CLOCKS.steady(), this.wall.lostAtEnd > 0];
    const isLong = time - kept.time >= KEEP || mark - kept.place >= this.keepBits;
    if (!isLong && (kept.isLost || !isLost)) return;
    this.kept = { time, place: mark, isLost };
    this.keep();
    this.measure();
  }

  /** Writes the metrics. */
  measure() {
    const { prometheus } = this.asked;
    if (!prometheus) return;
    const { lost, unsaved, ring, packer: { places } } = this;
    const counts = { lost, unsaved, failed: ring.failed, places, last: this.timeOf(places) };
    try {
      this.disk.replace(prometheus, metricsOf(this.triggers, this.incidents.tally, counts));
    } catch (fault) {
      this.complain(`the metrics: ${/** @type {Error} */ (fault).message}`);
    }
  }

  /**
   * Input did not come for a while, or is of another recording: nothing is judged over this.
   * @param {string} event
   * @param {Record<string, unknown>} [more]
   */
  seam(event, more = {}) {
    this.settle();
    this.incidents.seam(this.packer.places);
    this.triggers.seam(this.packer.places);
    this.wall.restart();
    this.keep();
    this.log(event, more);
  }

  /**
   * Saves an incident, and tells it, also where it cannot be saved.
   * @param {import("./incidents.js").Incident} incident
   */
  async save(incident) {
    /** @type {import("./saver.js").Saved} */
    let found = { saved: null, holes: [] };
    try {
      found = await this.saver.save(incident, this.incidents.recordOf(incident));
    } catch (fault) {
      this.complain(`an incident: ${/** @type {Error} */ (fault).message}`);
    }
    const { saved, holes } = found;
    if (saved === null) this.unsaved += 1;
    this.incidents.told(incident, saved, holes);
    const { run } = this.asked;
    const folder = saved === null ? "" : join(this.path("incidents"), saved);
    const fault = run ? await called(run, folder, Object.keys(incident.causes)) : "";
    if (fault !== "") this.complain(`--run: ${fault}`);
  }

  /**
   * Reads the dictionary anew: what comes from now on is decoded by it.
   * @param {string} dictionary
   */
  async change(dictionary) {
    await this.decoder.end();
    this.dictionary = dictionary;
    await this.decode(this.packer.places);
    this.triggers.seam(this.packer.places);
    this.log("dictionary");
  }

  /**
   * Ends: all that came is judged, and the incident saved that was open.
   * @param {boolean} isWell
   */
  async end(isWell = true) {
    const { places } = this.packer;
    if (isWell) await this.decoder.end();
    if (isWell) this.triggers.tick(places);
    this.incidents.finish(places);
    this.incidents.cutOff();
    this.incidents.close();
    this.settle();
    this.incidents.settle(Infinity);
    await this.saving;
    this.ring.goOn(this.ring.past);
    this.ring.close();
    await this.ring.packing;
    this.keep(isWell);
    this.measure();
    this.log("end");
    await this.disk.idle;
  }
}
