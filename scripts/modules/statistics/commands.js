import { VERDICTS, isUnfit, noVerdicts } from "../listing/kinds.js";
import { ANSWER } from "../port1.js";
import { Histogram } from "./histogram.js";

/** @typedef {import("../listing/kinds.js").Verdict} Verdict */

/**
 * A place, the counts of damaged pieces before it, and how many frames there are before it and, with the frame that
 * begins there, after it.
 * @typedef {{place: number, damage: number[], framesBefore: number, framesAfter: number}} Moment
 */

/** @typedef {{from: Moment, to: Moment}} Gap */

/** @param {Gap|null} gap */
const lengthOf = (gap) => (gap === null ? 0 : gap.to.place - gap.from.place);

/**
 * Commands in a row that had no answer: the place of the first one, and how many.
 * @typedef {{first: number, commands: number}} Silence
 */

// Of how many commands with a verdict the places are kept.
const MOST_PLACES = 12;

/** When commands got a verdict: how many, the places of the first of them, and that of the last. */
export class Times {
  constructor() {
    this.count = 0;
    /** @type {number[]} */
    this.places = [];
    this.last = 0;
  }

  /** @param {number} place */
  add(place) {
    this.count += 1;
    this.last = place;
    if (this.places.length < MOST_PLACES) this.places.push(place);
  }
}

/** The commands of one kind: when they came, and what became of them. */
export class Commands {
  constructor() {
    this.name = "";
    this.sent = 0;
    this.verdicts = noVerdicts();
    this.times = { late: new Times(), missing: new Times() };
    this.inTime = new Histogram(); // times to answers, in bits
    this.late = new Histogram();
    this.gaps = new Histogram(); // from the first bit of one command to that of the next,
    this.quiets = new Histogram(); // and those of them that a rest of all commands explains
    /** @type {Gap|null} */
    this.longest = null; // of the others
    /** @type {Gap|null} */
    this.longestQuiet = null;
    this.rested = 0; // the longest rest of all commands since the last one of this kind
    /** @type {Moment|null} */
    this.first = null;
    /** @type {Moment|null} */
    this.last = null;
    /** @type {Silence} */
    this.silence = { first: 0, commands: 0 };
    /** @type {Silence} */
    this.longestSilence = { first: 0, commands: 0 };
    this.replaced = 0; // how often another frame with the type of an answer came in place of the answer
    /** @type {import("./bus.js").Row|null} */
    this.replacement = null;
    /** @type {Map<1|2|null, number>} by the line of the damage */
    this.spoiltBy = new Map();
  }

  /** How many have a verdict. */
  get decided() {
    return VERDICTS.reduce((sum, verdict) => sum + this.verdicts[verdict], 0);
  }

  /** How many have another verdict than answered. */
  get bad() {
    return this.decided - this.verdicts.answered;
  }

  /** The times to all answers. */
  get replies() {
    return this.inTime.withThoseOf(this.late);
  }

  /**
   * Takes a command down.
   * @param {string} name
   * @param {Moment} now
   * @param {import("./beside.js").Beside} beside what a gap is not to be blamed on
   */
  send(name, now, beside) {
    if (this.name === "" || isUnfit(this.name)) this.name = name;
    this.sent += 1;
    this.first ??= now;
    if (this.last !== null && !beside.isNear(this.last.place, now.place)) this.addGap({ from: this.last, to: now });
    this.last = now;
    this.rested = 0;
  }

  /** @param {Gap} gap which a rest of all commands explains that is at least half as long */
  addGap(gap) {
    const length = lengthOf(gap);
    this.gaps.add(length);
    if (2 * this.rested >= length) {
      this.quiets.add(length);
      if (length > lengthOf(this.longestQuiet)) this.longestQuiet = gap;
    } else if (length > lengthOf(this.longest)) {
      this.longest = gap;
    }
  }

  /** The longest gap of all. */
  get longestOfAll() {
    return lengthOf(this.longestQuiet) > lengthOf(this.longest) ? this.longestQuiet : this.longest;
  }

  /**
   * Takes down what became of a command; the line before it in the listing tells why.
   * @param {Verdict} kind
   * @param {import("./bus.js").Row} verdict
   * @param {import("./bus.js").Row|null} before
   */
  judge(kind, verdict, before) {
    this.verdicts[kind] += 1;
    if (kind === "late" || kind === "missing") this.times[kind].add(verdict.first);
    if (verdict.replyBits !== null) (kind === "late" ? this.late : this.inTime).add(verdict.replyBits);
    if (kind === "missing") {
      this.miss(verdict, before);
    } else if (kind === "spoilt") {
      const line = before === null ? null : before.line;
      this.spoiltBy.set(line, (this.spoiltBy.get(line) ?? 0) + 1);
    } else {
      this.silence.commands = 0;
    }
  }

  /**
   * @param {import("./bus.js").Row} verdict
   * @param {import("./bus.js").Row|null} before
   */
  miss(verdict, before) {
    const { silence } = this;
    if (silence.commands === 0) silence.first = verdict.first;
    silence.commands += 1;
    if (silence.commands > this.longestSilence.commands) this.longestSilence = { ...silence };
    if (before !== null && before.type !== null && before.type >= ANSWER && before.line !== 1) {
      this.replaced += 1;
      this.replacement = before;
    }
  }
}
