// An hour in which each kind of finding comes again and again: all are told, each once, with how often it was.

import assert from "node:assert/strict";
import { test } from "node:test";
import { findingsOf } from "../findings/findings.js";
import { Kind } from "../watch/kind.js";
import { RATE, Talk } from "./support/bus_traffic.js";

const ENTRIES = [1536, 0].map((window, type) => ({ type, name: `t${type}`, length: 0, answered: true, window, bits: [] }));

const [ROUNDS, SLOT] = [36000, 100]; // of 100 ms; a fault lies within a slot of its own

/**
 * What becomes of the commands of a round, for some rounds of a slot.
 * @type {Record<string, [number, (made: any, at: number, station: number) => unknown]>}
 */
const FAULTS = {
  quiet: [25, () => undefined],
  mute: [5, (made, at, station) => made.missing(at, station, typeOf(station))],
  gap: [6, (made, at, station) => station !== 1 && well(made, at, station)],
  missing: [1, (made, at, station) => (station === 2 ? made.missing(at, 2, 0) : well(made, at, station))],
  late: [1, (made, at, station) => (station === 3 ? made.answered(at, 3, 0, 12, "late") : well(made, at, station))],
  spoilt: [1, (made, at, station) => (station === 3 ? spoilt(made, at) : well(made, at, station))],
  damage: beside((made, at) => made.damaged(2, at)),
  length: beside((made, at) => made.frame(2, at, 9, 200, "length")),
  unknown: beside((made, at) => made.frame(2, at, 9, 201, "unknown")),
  stray: beside((made, at) => made.judged(at, 5, 128, "stray", made.place(at + 1))),
};

/**
 * All answers, and once something beside.
 * @param {(made: any, at: number) => unknown} say
 * @returns {[number, (made: any, at: number, station: number) => unknown]}
 */
function beside(say) {
  return [1, (made, at, station) => [well(made, at, station), station === 1 && say(made, at + 60)]];
}

const spoilt = (made, at) => made.frame(1, at, 3, 0).judged(at, 3, 0, "spoilt", made.place(at + 5));

const typeOf = (station) => (station === 4 ? 1 : 0);

/** Station 4 takes nine times as long for three answers of ten. */
function well(made, at, station) {
  const isSlow = station === 4 && Math.floor(at / 100) % 10 < 3;
  if (isSlow) made.slow = (made.slow ?? 0) + 1;
  return made.answered(at, station, typeOf(station), isSlow ? 9 : 1);
}

/** @param {Counts} wanted spread over the hour */
function hour(wanted) {
  const slots = wanted.flatMap(([sort, times]) => Array(times).fill(sort));
  // 77 and the number of slots have no common divisor: each fault has a slot of its own.
  const faults = new Map(slots.map((sort, at) => [(5 + 77 * at) % (ROUNDS / SLOT), sort]));
  const made = /** @type {Talk & { slow?: number }} */ (new Talk());
  made.rounds(ROUNDS, (begin, round) => {
    const [length, say] = FAULTS[faults.get(Math.floor(round / SLOT)) ?? ""] ?? [0, well];
    const isFault = round % SLOT >= 50 && round % SLOT < 50 + length;
    for (const station of [1, 2, 3, 4]) (isFault ? say : well)(made, begin + 10 * station, station);
  });
  return made;
}

/** @typedef {[sort: string, times: number][]} Counts */

/**
 * What is sent in an hour, and how often each finding is told: of missing answers also those within silences of all
 * stations, and of slow ones as many as were sent, which stands as -1.
 * @type {[sent: Counts, due: Counts][]}
 */
const HOURS = [
  [
    [
      ["quiet", 15], ["gap", 9], ["mute", 4], ["missing", 40], ["late", 25], ["spoilt", 12],
      ["damage", 30], ["length", 10], ["unknown", 7], ["stray", 9],
    ],
    [
      ["mute", 4], ["quiet", 15], ["gap", 9], ["missing", 60], ["late", 25], ["slow", -1], ["spoilt", 12],
      ["damage", 30], ["length", 10], ["unknown", 7], ["stray", 9],
    ],
  ],
  [[["gap", 20], ["late", 200]], [["gap", 20], ["late", 200], ["slow", -1]]],
  [[], [["slow", -1]]],
];

for (const [sent, due] of HOURS) {
  test(`an hour with ${sent.map(([sort]) => sort).join(", ") || "nothing but slow answers"}`, () => {
    const made = hour(sent);
    const { listing, bus } = made.counted;
    const { findings, gapCount } = findingsOf(bus, listing, { end: null, entries: ENTRIES });
    const wanted = due.map(([sort, count]) => [sort, count < 0 ? made.slow : count]);
    assert.deepEqual(findings.map(({ sort, count }) => [sort, count]), wanted);
    assert.equal(gapCount, due.reduce((sum, [sort, count]) => sum + (sort === "quiet" || sort === "gap" ? count : 0), 0));
    for (const { places, count } of findings) assert.equal(places.length, Math.min(count, 200));
  });
}

test("a gap that is a fault of the summary is an incident of a watch, and no other", () => {
  for (const lacking of [1, 2, 3, 9]) {
    const made = new Talk();
    made.rounds(80, (at, round) => (round <= 40 || round > 40 + lacking) && made.answered(at, 1, 0));
    const { listing, bus } = made.counted;
    const [{ level }] = findingsOf(bus, listing, { end: null, entries: ENTRIES }).findings;
    const kind = new Kind(undefined);
    for (const _ of Array(20)) kind.learn(0.1 * RATE);
    assert.equal(level === "fault", 0.1 * (lacking + 1) * RATE > kind.limit);
    assert.equal(level === "fault", lacking >= 3);
  }
});
