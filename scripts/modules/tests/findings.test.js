// What the page says is wrong, and how grave it is, of talks whose truth is known.

import assert from "node:assert/strict";
import { test } from "node:test";
import { findingsOf } from "../findings/findings.js";
import { Bus } from "../statistics/bus.js";
import { verdictOf } from "../statistics/verdict.js";
import { RATE, Talk } from "./support/bus_traffic.js";

const WITH_WINDOW = [{ type: 0, name: "t0", length: 0, answered: true, window: 1536, bits: [] }];
const WITHOUT_WINDOW = [{ ...WITH_WINDOW[0], window: 0 }];

/**
 * Rounds of 100 ms in which two stations are asked and answer, but for what is said otherwise: by station and round, a
 * function of the talk and the time, or null for nothing.
 */
function talk(rounds, others = {}) {
  const made = new Talk();
  made.rounds(rounds, (begin, round) => {
    for (const station of [1, 2]) {
      const at = begin + 10 * station;
      const key = [`${station} ${round}`, `station ${station}`, `round ${round}`].find((some) => some in others);
      if (key === undefined) made.answered(at, station, 0);
      else others[key]?.(made, at, station);
    }
  });
  return made;
}

const missing = (made, at, station) => made.missing(at, station, 0);
const late = (made, at, station) => made.answered(at, station, 0, 12, "late");
const slow = (made, at, station) => made.answered(at, station, 0, 9);
const unjudged = (made, at, station) => made.frame(1, at, station, 0, "").frame(2, at + 1, station, 128, "");
const times = (rounds, what) => Object.fromEntries(rounds.map((round) => [round, what]));

/** Commands on line 2. */
const exchanged = new Talk();
exchanged.rounds(20, (at) => exchanged.frame(2, at, 1, 0));

/**
 * Of each case: the talk, how long the recording is in seconds, the dictionary; the findings, the level and the lacks.
 * @typedef {{ talk: Talk, end?: number|null, entries?: any[]|null, isDoubtful?: boolean }} Asked
 * @type {(Asked & { name: string, found?: unknown[][], level: string, lacks?: string[] })[]}
 */
const CASES = [
  { name: "all is answered", talk: talk(20), level: "well" },
  { name: "no window in the dictionary", talk: talk(20), entries: WITHOUT_WINDOW, level: "unknown", lacks: ["windows"] },
  { name: "a listing, whose windows are not known", talk: talk(20), entries: null, level: "unknown", lacks: ["windows"] },
  { name: "no dictionary", talk: talk(20, { "station 1": unjudged, "station 2": unjudged }), entries: null, level: "unknown", lacks: ["dictionary"] },
  { name: "warnings of the recording", talk: talk(20), isDoubtful: true, level: "doubt" },
  {
    name: "one answer in 150 missing", talk: talk(150, { "1 40": missing }), found: [["missing", "doubt", 1, 4.01]],
    level: "doubt",
  },
  {
    name: "one answer in 100 missing", talk: talk(100, { "1 40": missing }), found: [["missing", "fault", 1, 4.01]],
    level: "fault",
  },
  {
    name: "three missing in a row, of 400", talk: talk(400, times(["1 40", "1 41", "1 42"], missing)),
    found: [["missing", "fault", 3, 4.01]], level: "fault",
  },
  {
    name: "three missing, of 400, not in a row", talk: talk(400, times(["1 40", "1 42", "1 44"], missing)),
    found: [["missing", "doubt", 3, 4.01]], level: "doubt",
  },
  { name: "late answers", talk: talk(100, times(["1 3", "1 4"], late)), found: [["late", "doubt", 2, 0.31]], level: "doubt" },
  {
    name: "slow answers, which no window judges", talk: talk(100, times(["1 3", "1 40"], slow)),
    entries: WITHOUT_WINDOW, found: [["slow", "doubt", 2, 0.31]], level: "doubt", lacks: ["windows"],
  },
  { name: "slow answers within their window", talk: talk(100, times(["1 3"], slow)), level: "well" },
  {
    name: "a station that answers slowly as a rule",
    talk: talk(100, { "station 1": (made, at, station) => made.answered(at, station, 0, at % 300 === 10 ? 9 : 1) }),
    entries: WITHOUT_WINDOW, found: [["slow", "doubt", 34, 0.01]], level: "doubt", lacks: ["windows"],
  },
  {
    name: "one command left out of forty", talk: talk(40, times(["1 20"], null)), found: [["gap", "doubt", 1, 1.91]],
    level: "doubt",
  },
  {
    name: "all stations silent for a while, three times",
    talk: talk(60, times(["round 20", "round 21", "round 30", "round 31", "round 32", "round 40", "round 41"], missing)),
    found: [["mute", "fault", 3, 3.01]], level: "fault",
  },
  {
    name: "a gap of one station", talk: talk(50, times(["1 20", "1 21", "1 22"], null)),
    found: [["gap", "fault", 1, 1.91]], level: "fault",
  },
  {
    name: "two gaps of one station", talk: talk(80, times(["1 20", "1 21", "1 22", "1 60", "1 61", "1 62"], null)),
    found: [["gap", "fault", 2, 1.91]], level: "fault",
  },
  {
    name: "no command to any station: one sentence", talk: talk(50, times(["round 20", "round 21", "round 22"], null)),
    found: [["quiet", "fault", 1, 1.92]], level: "fault",
  },
  {
    name: "no command in the beginning: one sentence",
    talk: talk(50, times(["round 0", "round 1", "round 2", "round 3"], null)).write(1, 0, 15, "idle"),
    found: [["quiet", "fault", 1, 0]], level: "fault",
  },
  { name: "a silent station", talk: talk(50, { "station 1": missing }), found: [["silent", "fault", 50, 0.01]], level: "fault" },
  {
    name: "no answers from a time on: one sentence",
    talk: talk(50, times(Array.from({ length: 25 }, (_, at) => `round ${25 + at}`), missing)),
    found: [["mute", "fault", 50, 2.51]], level: "fault",
  },
  {
    name: "nothing on line 2 at all: one sentence", talk: talk(50, { "station 1": missing, "station 2": missing }),
    found: [["mute", "fault", 100, 0.01]], level: "fault",
  },
  {
    name: "damage and no frame on line 2: one sentence",
    talk: talk(50, { "station 1": missing, "station 2": missing }).damaged(2, 100),
    found: [["mute", "fault", 100, 0.01]], level: "fault",
  },
  {
    name: "no frame on line 2, and damage on line 1: a sentence each",
    talk: talk(50, { "station 1": missing, "station 2": missing }).damaged(1, 100),
    found: [["mute", "fault", 100, 0.01], ["damage", "doubt", 1, 0.1]], level: "fault",
  },
  { name: "a dead end", talk: talk(50), end: 10, found: [["rest", "fault", 1, 4.922]], level: "fault" },
  { name: "an end within a round", talk: talk(50), end: 5.05, level: "well" },
  { name: "one round, and a rest that may be usual", talk: talk(1), end: 0.1, level: "well" },
  { name: "lines exchanged", talk: exchanged, found: [["lines", "fault", 20, 0]], level: "fault", lacks: ["lines"] },
  { name: "damage", talk: talk(50).damaged(1, 333).damaged(2, 444), found: [["damage", "doubt", 2, 0.333]], level: "doubt" },
  {
    name: "frames that the dictionary does not fit",
    talk: talk(50).frame(1, 555, 9, 7, "unknown").frame(1, 666, 9, 8, "length"),
    found: [["length", "doubt", 1, 0.666], ["unknown", "doubt", 1, 0.555]], level: "doubt",
  },
  {
    name: "the last command waits, for less than an answer takes",
    talk: talk(50).frame(1, 5000, 1, 0).judged(5000, 1, 0, "pending", 800000), end: 5.001, level: "well",
  },
  {
    name: "the last command waits for longer",
    talk: talk(50).frame(1, 5000, 1, 0).judged(5000, 1, 0, "pending", 800000), end: 5.02, level: "unknown",
    lacks: ["pending"],
  },
  { name: "nothing at all", talk: new Talk(), level: "unknown", lacks: ["lines"] },
  { name: "damage alone", talk: new Talk().damaged(1, 5), found: [["damage", "doubt", 1, 0.005]], level: "doubt", lacks: ["frames"] },
];

/** @param {Asked} asked */
function judged({ talk: { counted }, end = null, entries = WITH_WINDOW, isDoubtful = false }) {
  const { listing, bus } = counted;
  const known = { end: end === null ? null : Math.round(end * RATE), entries };
  const found = findingsOf(bus, listing, known);
  return { found, verdict: verdictOf(bus, known, found.findings, isDoubtful), listing };
}

for (const { name, found: wanted = [], level, lacks = [], ...asked } of CASES) {
  test(name, () => {
    const { found, verdict, listing } = judged(asked);
    const got = found.findings.map((finding) => [finding.sort, finding.level, finding.count, near(finding.places[0])]);
    assert.deepEqual(got, wanted);
    assert.equal(verdict.level, level);
    assert.deepEqual(verdict.lacks.map(({ sort }) => sort), lacks);
    for (const { places, count, isStretch } of found.findings) {
      assert.ok(places.length > 0 && places.every(({ row }) => row >= 0 && row < listing.length), "a place has no line");
      if (isStretch) assert.equal(places.length, count);
    }
  });
}

/** A place in seconds, to a millisecond. */
function near({ first }) {
  return Math.round((first / RATE) * 1000) / 1000;
}

test("each line of a sentence is one that it is about", () => {
  const { found, listing } = judged({ talk: talk(100, { ...times(["1 3", "1 4"], late), ...times(["2 40", "2 60"], missing) }) });
  for (const { sort, kind, places, count } of found.findings) {
    assert.equal(places.length, count);
    for (const { row, first } of places) {
      assert.equal(listing.text(row).split(" ").slice(3).join(" "), `${sort} station ${kind?.station} type ${kind?.type}`);
      assert.equal(listing.firsts[row], first);
    }
  }
  assert.equal(found.findings.length, 2);
});

test("a sentence of the page is that of the report, without places and references", () => {
  const { found } = judged({ talk: talk(50, times(["1 20", "1 21", "1 22"], null)).damaged(1, 2050) });
  const [gap, damage] = found.findings.map(({ text }) => text);
  assert.equal(
    gap,
    "Station 1 got no type 0 (t0) for 400 ms from 1.910 s on. Usually it gets one each 100 ms, so 3 are lacking. " +
      "1 damaged piece lay within (line 1: 1 fcs): commands may have been destroyed.",
  );
  assert.equal(damage, "1 piece is damaged.");
});

test("all gaps are counted, also those that have no sentence, and a common one once", () => {
  const kinds = Array.from({ length: 9 }, (_, type) => type);
  const made = new Talk();
  const isLacking = (type, round) => round === 10 + 2 * type || (type === 0 && round === 40);
  made.rounds(50, (at, round) => {
    for (const type of kinds) if (!isLacking(type, round)) made.answered(at + 5 * type, 1, type);
  });
  assert.equal(judged({ talk: made }).found.gapCount, 10);
  const quiet = talk(80, times(["round 20", "round 21", "round 22", "round 60", "round 61", "round 62"], null));
  assert.equal(judged({ talk: quiet }).found.gapCount, 2);
});

/** Rounds with damage and a missing answer in the third, at 220 and 226 ms, and the same in the eighth. */
function faulty() {
  const made = talk(12, { "2 2": missing, "2 7": missing });
  return made.damaged(2, 226).damaged(2, 726);
}

/** Stretches of milliseconds of which the recording is not sure, and the findings. */
const UNSURE = [
  [[], ["missing", "damage"], [2, 2]],
  [[[221, 221]], ["missing", "beside", "damage"], [1, 2, 1]],
  [[[221, 221], [700, 760]], ["beside"], [4]],
  [[[0, Infinity]], ["beside"], [4]],
  [[[400, 400]], ["missing", "damage"], [2, 2]],
];

for (const [stretches, sorts, counts] of UNSURE) {
  test(`a recording that lacks samples at ${JSON.stringify(stretches)} ms`, () => {
    const { listing } = faulty();
    const places = stretches.map((times) => times.map((time) => (time * RATE) / 1000));
    const bus = new Bus(RATE, null, places.map(([first, past]) => ({ first, past })));
    bus.takeAll(listing.rows());
    const { findings } = findingsOf(bus, listing, { end: null, entries: WITH_WINDOW });
    assert.deepEqual(findings.map(({ sort }) => sort), sorts);
    assert.deepEqual(findings.map(({ count }) => count), counts);
  });
}

test("sentences beyond the first of a sort are as grave as these", () => {
  const kinds = Array.from({ length: 9 }, (_, type) => type);
  const made = new Talk();
  made.rounds(20, (at, round) => kinds.forEach((type) => (round === 10 ? made.missing(at + 5 * type, 1, type) : made.answered(at + 5 * type, 1, type))));
  const { found } = judged({ talk: made.damaged(1, 1) });
  assert.deepEqual(
    found.findings.map(({ sort, level }) => `${sort} ${level}`),
    [...Array(6).fill("missing fault"), "more fault", "damage doubt"],
  );
});
