import { BAD_VERDICTS, DAMAGE } from "../listing/kinds.js";
import { ANSWER, RATE } from "../port1.js";
import { SAVED } from "../statistics/findings.js";
import { Kind } from "./kind.js";

/** @typedef {import("../listing/listing.js").Row} Row */

/** @typedef {{ line: string }|{ kind: string, commands?: number }} About what is well again */

/**
 * What is worth a capture, and what is well again.
 * @typedef {object} Ears
 * @property {(cause: string, first: number, past: number) => void} trigger
 * @property {(about: About, first: number, past: number, since: number|null) => void} wellAgain
 */

/** @typedef {Pick<Row, "kind"|"line"|"past">} Mark what tells a line from the others */

/** Numbers of a trigger: answers in a row, damaged pieces in a second, and a rest of both lines in places. */
const { row: ROW, burst: BURST } = SAVED;
const REST = SAVED.rest * RATE;

/** How far before a place that has been heard all frames are known: none is longer. */
export const SURE = RATE / 10;

/** Judges the lines of a listing, as they come, and what does not come. */
export class Triggers {
  /** @type {Map<string, Kind>} */
  kinds = new Map();
  frames = [0, 0, 0]; // by line
  /** @type {Map<string, number>} */
  damage = new Map(); // by line and cause
  /** @type {number[]} */
  pieces = []; // where the last damaged ones began
  /** @type {number|null} */
  lastHeard = null; // the end of the last frame or piece
  isAtRest = false;
  /** @type {Mark|null} */
  judged = null; // the last line that was

  /** @param {Ears} ears @param {Map<string, number>} gaps by kind, in places */
  constructor(ears, gaps) {
    this.ears = ears;
    this.given = gaps;
  }

  /** @param {string} name of a kind, as 16/0 */
  kind(name) {
    const known = this.kinds.get(name);
    if (known) return known;
    const fresh = new Kind(this.given.get(name));
    this.kinds.set(name, fresh);
    return fresh;
  }

  /**
   * What outlives the watch.
   * @param {(place: number) => number} timeOf a place
   */
  kept(timeOf) {
    const { pieces, lastHeard, isAtRest, judged } = this;
    const kinds = Object.fromEntries([...this.kinds].map(([name, kind]) => [name, kind.kept(timeOf)]));
    return { kinds, pieces, lastHeard, isAtRest, judged };
  }

  /**
   * Goes on where another one of the same run was.
   * @param {ReturnType<Triggers["kept"]>} kept
   */
  resume({ kinds, pieces, lastHeard, isAtRest, judged }) {
    for (const [name, kind] of Object.entries(kinds)) Object.assign(this.kind(name), kind);
    Object.assign(this, { pieces, lastHeard, isAtRest, judged });
  }

  /**
   * What an earlier run knew.
   * @param {Record<string, ReturnType<Kind["kept"]>>} kept
   * @param {boolean} isNear whether so little lies between that a row of bad answers goes on
   */
  restore(kept, isNear) {
    for (const [name, { usual, isBad, isGone, since, bad }] of Object.entries(kept)) {
      const row = isNear && !isBad ? bad : 0;
      const when = isBad || isGone || row > 0 ? since : null;
      Object.assign(this.kind(name), { usual, isBad, isGone, since: when, last: 0, badFrom: 0, bad: row });
    }
  }

  /**
   * Bits were lost at a place: no gap, no row of bad answers and no burst goes over it.
   * @param {number} place
   */
  seam(place) {
    this.pieces = [];
    if (this.lastHeard !== null && !this.isAtRest) this.lastHeard = place;
    for (const kind of this.kinds.values()) {
      if (kind.last !== null && !kind.isGone) kind.last = place;
      kind.bad = 0;
    }
  }

  /** @param {Iterable<Row>} rows */
  hear(rows) {
    for (const row of rows) {
      if (row.kind === "frame") this.frame(row);
      else if (DAMAGE.includes(row.kind)) this.piece(row);
      else if (row.kind === "answered") this.answered(row);
      else if (BAD_VERDICTS.includes(row.kind)) this.badAnswer(row);
      else continue;
      this.judged = { kind: row.kind, line: row.line, past: row.past };
    }
  }

  /** @param {Row} row */
  heard({ first, past }) {
    const { lastHeard } = this;
    if (lastHeard !== null && past - lastHeard > REST) {
      const due = lastHeard + REST;
      if (!this.isAtRest) this.ears.trigger("rest", lastHeard, due);
      this.ears.wellAgain({ line: "both" }, lastHeard, Math.max(first, due), null);
    }
    this.isAtRest = false;
    this.lastHeard = Math.max(past, lastHeard ?? 0);
  }

  /** @param {Row} row */
  frame(row) {
    this.heard(row);
    this.frames[row.line ?? 0] += 1;
    if (row.line === 1 && row.type !== null && row.type < ANSWER) this.command(`${row.station}/${row.type}`, row.first);
  }

  /** @param {string} name @param {number} first */
  command(name, first) {
    const kind = this.kind(name);
    kind.sent += 1;
    const gap = kind.last === null ? null : first - kind.last;
    if (kind.isGone) {
      this.ears.wellAgain({ kind: name }, /** @type {number} */ (kind.last), first, kind.since);
      if (!kind.isBad) kind.since = null;
    } else if (kind.last !== null && gap !== null && gap > kind.limit) {
      this.ears.trigger(`gap ${name}`, kind.last, Math.ceil(kind.last + kind.limit));
      this.ears.wellAgain({ kind: name }, kind.last, first, null);
    } else if (gap !== null) {
      kind.learn(gap);
    }
    kind.last = first;
    kind.isGone = false;
  }

  /** @param {Row} row */
  answered(row) {
    const name = `${row.station}/${row.type}`;
    const kind = this.kind(name);
    kind.verdicts.answered += 1;
    if (row.replyBits !== null) kind.reply(row.replyBits);
    if (kind.isBad) this.ears.wellAgain({ kind: name, commands: kind.bad }, kind.badFrom, row.first, kind.since);
    if (!kind.isGone) kind.since = null;
    kind.isBad = false;
    kind.bad = 0;
  }

  /** @param {Row} row */
  badAnswer(row) {
    const name = `${row.station}/${row.type}`;
    const kind = this.kind(name);
    kind.verdicts[/** @type {import("../listing/kinds.js").Verdict} */ (row.kind)] += 1;
    if (row.replyBits !== null) kind.reply(row.replyBits);
    if (kind.bad === 0 && !kind.isBad) kind.badFrom = row.first;
    kind.bad += 1;
    if (kind.isBad || kind.bad < ROW) return;
    kind.isBad = true;
    this.ears.trigger(`${row.kind} ${name}`, kind.badFrom, row.past);
  }

  /** @param {Row} row */
  piece(row) {
    this.heard(row);
    const cause = `${row.line} ${row.cause || row.kind}`;
    this.damage.set(cause, (this.damage.get(cause) ?? 0) + 1);
    this.pieces.push(row.first);
    if (this.pieces.length > BURST) this.pieces.shift();
    const isFull = this.pieces.length === BURST;
    if (isFull && row.first - this.pieces[0] < RATE) this.ears.trigger("burst", this.pieces[0], row.past);
  }

  /**
   * Judges what time alone decides, at the place where it does: all before a later one has been heard.
   * @param {number} mark
   */
  tick(mark) {
    for (const [name, kind] of this.kinds) {
      if (kind.isGone || kind.last === null || mark - kind.last <= kind.limit) continue;
      kind.isGone = true;
      this.ears.trigger(`gap ${name}`, kind.last, Math.ceil(kind.last + kind.limit));
    }
    if (this.isAtRest || this.lastHeard === null || mark - this.lastHeard <= REST) return;
    this.isAtRest = true;
    this.ears.trigger("rest", this.lastHeard, this.lastHeard + REST);
  }
}
