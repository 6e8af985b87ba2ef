import { RATE } from "../port1.js";
import { iso, rounded } from "./wall.js";

/** What comes within so many seconds of the beginning of a run may go on from the one before. */
const GOES_ON = 60;

/** What was decided up to a place is known so many places later: any answer takes less. */
const KNOWN = RATE;

/** How near a place without input is told with an incident, in seconds. */
const NEAR_SEAM = 1;

/**
 * An incident: its run and number there, its places, how often each of its causes came, and when place 0 of its run
 * was, in seconds since 1970.
 * @typedef {object} Incident
 * @property {string} id
 * @property {number} run
 * @property {number} first
 * @property {number} past
 * @property {Record<string, number>} causes
 * @property {number} zero
 * @property {boolean} cut whether the watch ended before it
 * @property {boolean} [seam] whether bits were missing beside it in its run
 * @property {string} [continues] the incident of the run before that goes on in this one
 */

/**
 * @typedef {object} Office what incidents need of the watch
 * @property {(place: number) => number} zero when place 0 was by the clock of a place
 * @property {(id: string, cause: string, first: number) => boolean} [isTaken] whether another incident has an id
 * @property {() => number} [settled] the place up to which that is sure
 * @property {() => void} keep writes down what is known, which outlives the watch
 * @property {(record: import("./journal.js").JournalEntry) => void} log
 * @property {(incident: Incident) => void} save
 */

/**
 * The places that are saved of an incident, however long it lasts.
 * @param {{ first: number, past: number }} incident
 * @param {{ before?: number, after: number, longest: number }} times in seconds
 * @returns {[first: number, past: number]}
 */
export function savedOf({ first, past }, { before = 0, after, longest }) {
  return [Math.max(0, first - before * RATE), Math.min(past, first + longest * RATE) + after * RATE];
}

/**
 * What came: a cause, or what is well again; and where it began and was decided.
 * @typedef {object} Event
 * @property {string} [cause]
 * @property {import("./triggers.js").About} [about]
 * @property {number} first
 * @property {number} past
 * @property {number|null} [since] when it began, in seconds since 1970, where that was in an earlier run
 */

/**
 * The order of what came: by places, however it was heard.
 * @param {Event} one
 * @param {Event} other
 */
function inOrder(one, other) {
  const places = one.past - other.past || one.first - other.first;
  if (places !== 0) return places;
  const [text, next] = [one, other].map(({ cause, about }) => cause ?? `~${JSON.stringify(about)}`);
  return text < next ? -1 : Number(text > next);
}

/** Joins what comes within some seconds to one incident, and ends it. */
export class Incidents {
  /** @type {Incident|null} */
  open = null;
  /** @type {Incident[]} those that are to be saved, until they are told */
  waiting = [];
  /** @type {Incident[]} those that are over, until their times are sure */
  over = [];
  /** @type {Map<string, { id: string, first: number, past: number, count: number }>} causes that go on too long */
  long = new Map();
  /** @type {Map<string, number>} */
  tally = new Map();
  /** @type {Incident[]} of the run before */
  before = [];
  /** @type {Event[]} what came, until all before it is known */
  ahead = [];
  /** @type {number[]} places before which bits are missing */
  seams = [];
  count = 0;

  /** @param {number} run @param {{ after: number, longest: number }} times in seconds @param {Office} office */
  constructor(run, times, office) {
    this.run = run;
    this.times = times;
    this.office = office;
  }

  /**
   * What outlives the watch.
   * @param {(place: number) => number} [zero] when place 0 was by the clock of a place, were nothing more to come
   * @param {number[]} [seams] places before which bits are missing then
   */
  kept(zero = this.office.zero, seams = []) {
    const { open, waiting, over, long, before, count, ahead } = this;
    const all = [...this.seams, ...seams];
    const marked = (/** @type {Incident} */ one) => (this.isAtSeam(one, all) ? { ...one, seam: true } : one);
    const timed = (/** @type {Incident} */ one) => marked({ ...one, zero: zero(one.first) });
    const untold = [...waiting.map(marked), ...over.map(timed)];
    return { open: open && timed(open), waiting: untold, long: [...long], before, count, ahead, seams: all };
  }

  /**
   * Goes on where another one of the same run was.
   * @param {import("./memory.js").Kept["incidents"]} kept
   */
  resume({ open, waiting, long, before, count, ahead = [], seams = [] }) {
    Object.assign(this, { open, waiting, long: new Map(long), before, count, ahead: [...ahead], seams: [...seams] });
  }

  /**
   * Takes over what the run before did not tell.
   * @param {Incident[]} incidents
   * @param {Incident[]} [cut] those that it told, and ended in
   */
  takeOver(incidents, cut = []) {
    this.before = [...incidents, ...cut];
    this.waiting.push(...incidents);
    incidents.forEach((incident) => this.office.save(incident));
  }

  /** @param {string} cause @param {number} first @param {number} past */
  trigger(cause, first, past) {
    this.ahead.push({ cause, first, past });
  }

  /**
   * Something is well again that an incident may be about.
   * @param {import("./triggers.js").About} about
   * @param {number} first
   * @param {number} past
   * @param {number|null} since when it began, in seconds since 1970, where that was in an earlier run
   */
  wellAgain(about, first, past, since) {
    this.ahead.push({ about, first, past, since });
  }

  /**
   * Judges what came, in the order of its places, up to one before which all is known.
   * @param {number} place
   */
  take(place) {
    const due = this.ahead.filter(({ past }) => past <= place).sort(inOrder);
    this.ahead = this.ahead.filter((event) => !due.includes(event));
    for (const event of due) {
      this.advance(event.past);
      if (event.cause === undefined) this.tellWell(event);
      else this.join(event.cause, event.first, event.past);
    }
  }

  /** @param {string} cause @param {number} first @param {number} past */
  join(cause, first, past) {
    const long = this.long.get(cause);
    if (long) {
      Object.assign(long, { past, count: long.count + 1 });
      return;
    }
    const open = this.open ?? this.begun(cause, first, past);
    const isNew = open.causes[cause] === undefined;
    open.causes[cause] = (open.causes[cause] ?? 0) + 1;
    [open.first, open.past] = [Math.min(open.first, first), Math.max(open.past, past)];
    if (!isNew) return;
    const [sort] = cause.split(" ");
    this.tally.set(sort, (this.tally.get(sort) ?? 0) + 1);
    this.office.keep();
    if (Object.keys(open.causes).length === 1) this.tellBegun(open);
  }

  /** @param {Incident} incident */
  tellBegun({ id, run, zero, first, causes }) {
    const [cause] = Object.keys(causes);
    this.office.log({ event: "begun", wall: iso(zero + first / RATE), run, place: first, id, cause });
  }

  /** @param {string} cause @param {number} first @param {number} past @returns {Incident} */
  begun(cause, first, past) {
    const next = () => `${this.run}-${++this.count}`;
    let id = next();
    while (this.office.isTaken?.(id, cause, first)) id = next();
    const isEarly = first < GOES_ON * RATE;
    const earlier = isEarly ? this.before.find(({ cut, causes }) => cut && causes[cause] !== undefined) : undefined;
    const more = earlier ? { continues: earlier.id } : {};
    const zero = this.office.zero(first);
    return (this.open = { id, run: this.run, first, past, causes: {}, zero, cut: false, ...more });
  }

  /** @param {Event} event */
  tellWell({ about, first, past, since = null }) {
    if (this.open) this.open.past = Math.max(this.open.past, past);
    const time = this.office.zero(past) + past / RATE;
    const seconds = rounded(since === null ? (past - first) / RATE : time - since);
    this.office.log({ event: "well again", wall: iso(time), run: this.run, place: past, ...about, seconds });
  }

  /** @param {number} place */
  seam(place) {
    this.seams.push(place);
    if (this.seams.length > 100) this.seams.shift();
  }

  /**
   * Judges what came, once all before a place has been heard.
   * @param {number} mark
   */
  tick(mark) {
    this.take(mark - KNOWN);
    this.advance(mark - KNOWN);
    this.settle(this.office.settled?.() ?? Infinity, mark - KNOWN);
  }

  /**
   * Ends what is over at a place, or lasts too long.
   * @param {number} place
   */
  advance(place) {
    const { open, times } = this;
    if (open && open.past - open.first > times.longest * RATE) {
      for (const cause of Object.keys(open.causes)) {
        this.long.set(cause, { id: open.id, first: open.first, past: open.past, count: 0 });
      }
      this.close();
    } else if (open && place > open.past + times.after * RATE) {
      this.close();
    }
    for (const [cause, { id, first, past }] of this.long) {
      if (place <= past + times.longest * RATE) continue;
      this.long.delete(cause);
      const wall = iso(this.office.zero(past) + past / RATE);
      this.office.log({ event: "over", wall, run: this.run, place: past, id, cause, seconds: (past - first) / RATE });
    }
  }

  /**
   * Judges all that came: nothing comes any more.
   * @param {number} place
   */
  finish(place) {
    this.take(Infinity);
    this.advance(place);
  }

  /** Marks the incident, if there is one, within which the watch ends: the next run may go on with it. */
  cutOff() {
    if (this.open) this.open.cut = true;
    this.before = this.open ? [this.open] : [];
  }

  /** Ends the incident, if there is one. */
  close() {
    const { open } = this;
    if (open === null) return;
    this.open = null;
    this.over.push(open);
  }

  /**
   * Has those saved whose times are sure, and what lies beside them, and all of whose bits have come.
   * @param {number} settled the place up to which times are
   * @param {number} [come] the place up to which bits have
   */
  settle(settled, come = Infinity) {
    const isSure = (/** @type {Incident} */ incident) =>
      incident.past + NEAR_SEAM * RATE <= settled && savedOf(incident, this.times)[1] <= come;
    const sure = this.over.filter(isSure);
    if (sure.length === 0) return;
    this.over = this.over.filter((incident) => !sure.includes(incident));
    for (const incident of sure) incident.zero = this.office.zero(incident.first);
    this.waiting.push(...sure);
    this.office.keep();
    sure.forEach((incident) => this.office.save(incident));
  }

  /**
   * Whether an incident is near a place before which bits are missing.
   * @param {Incident} incident
   * @param {number[]} [seams]
   */
  isAtSeam({ run, first, past, seam = false }, seams = this.seams) {
    const near = NEAR_SEAM * RATE;
    return seam || (run === this.run && seams.some((place) => first - near < place && place < past + near));
  }

  /**
   * What is told of an incident.
   * @param {Incident} incident
   */
  recordOf(incident) {
    const { id, run, first, past, causes, zero, cut, continues } = incident;
    const [wall, until] = [first, past].map((place) => iso(zero + place / RATE));
    const seam = this.isAtSeam(incident);
    const marks = { ...(cut && { cut }), ...(continues && { continues }), ...(seam && { seam }) };
    return { wall, past: until, run, place: first, seconds: (past - first) / RATE, id, causes, ...marks };
  }

  /**
   * Tells an incident.
   * @param {Incident} incident
   * @param {string|null} saved the name of its folder, if it has one
   * @param {import("./saver.js").Missing[]} [holes]
   */
  told(incident, saved, holes = []) {
    const missing = holes.length > 0 ? { holes } : {};
    this.office.log({ event: "incident", ...this.recordOf(incident), ...missing, saved });
    this.waiting = this.waiting.filter((other) => other !== incident);
    this.office.keep();
  }
}
