// The timeline: which lines stand in which lane and track, as marks where they are few, and counted where they are many.

import assert from "node:assert/strict";
import { test } from "node:test";
import { Lanes } from "../src/worker/lanes.js";
import { RATE, Talk } from "../../scripts/modules/tests/support/bus_traffic.js";

const NO_NAMES = new Map();
const BINS = 10;

const lanesOf = (talk, gaps = new Map()) => new Lanes(talk.listing, gaps, NO_NAMES);
const shape = (lanes) => lanes.map(({ name, tracks }) => [name, ...tracks.map(({ id, total }) => `${total} ${id}`)]);

/** Three stations: one that answers, one that is late, misses and waits, and one with a frame of no type; and damage. */
const mixed = new Talk()
  .answered(0, 1, 0)
  .answered(10, 1, 0)
  .answered(20, 2, 1, 12, "late")
  .missing(40, 2, 1)
  .write(2, 9000, 9041, "stray station 2 type 129")
  .write(1, 9100, 9141, "spoilt station 2 type 1")
  .write(1, 9200, 9241, "pending station 2 type 1")
  .write(1, 9300, 9332, "frame 0713ccb8 control 19")
  .damaged(1, 70)
  .damaged(2, 80, "short")
  .write(2, 15000, 15015, "idle");

test("each line is in the lane of its station, or in that of its line's damage", () => {
  assert.deepEqual(shape(lanesOf(mixed).between(0, RATE, BINS)), [
    ["1", "2 command", "2 answer"],
    ["2", "2 command", "1 answer", "1 late", "1 missing", "1 spoilt", "1 stray", "1 pending"],
    ["7", "1 other"],
    ["Damage", "1 damage"],
    ["Damage", "1 damage"],
  ]);
});

test("a listing of one line has one lane for its damage, without a number", () => {
  const { listing } = new Talk();
  listing.addPiece(0, 5, 20, 3, 0);
  const [lane] = new Lanes(listing, new Map(), NO_NAMES).between(0, 30, BINS);
  assert.deepEqual([lane.name, lane.about, lane.tracks[0].total], ["Damage", "", 1]);
});

test("marks are those that reach into view, with their lines", () => {
  const talk = new Talk().answered(0, 1, 0).answered(10, 1, 0).answered(20, 1, 0);
  const [lane] = lanesOf(talk).between(talk.place(10) + 40, talk.place(20), BINS);
  const [commands, answers] = lane.tracks;
  assert.deepEqual(commands.marks?.map(({ first, past }) => [first, past]), [[talk.place(10), talk.place(10) + 41]]);
  assert.equal(answers.marks?.length, 1);
  assert.match(answers.marks?.[0].text, /^2 .* station 1 type 128 t128$/);
  assert.equal(commands.count, 0, "none begins in view");
});

test("a piece that began long before is in view as long as it lasts", () => {
  const talk = new Talk().write(1, 0, 900000, "overlong").answered(6000, 1, 0);
  const damage = lanesOf(talk).between(800000, 810000, BINS).at(-1);
  assert.deepEqual(damage?.tracks[0].marks?.map(({ first, past }) => [first, past]), [[0, 900000]]);
});

test("many are counted in bins, which lead to the first of each", () => {
  const talk = new Talk();
  talk.rounds(2000, (_, round) => talk.answered(5 * round, 1, 0));
  const [lane] = lanesOf(talk).between(0, talk.place(10000), BINS);
  const [commands] = lane.tracks;
  assert.deepEqual([...(commands.counts ?? [])], Array(BINS).fill(200));
  assert.equal(commands.marks, undefined);
  const { listing } = talk;
  const places = [...(commands.leaders ?? [])].map((row) => listing.firsts[row]);
  assert.deepEqual(places, Array.from({ length: BINS }, (_, bin) => talk.place(1000 * bin)));
});

test("one station alone, and the damage", () => {
  assert.deepEqual(shape(lanesOf(mixed).between(0, RATE, BINS, 2)).map(([name]) => name), ["2", "Damage", "Damage"]);
});

test("of many stations those with most lines have lanes, and the rest share one", () => {
  const talk = new Talk();
  for (let station = 0; station < 40; station++) {
    const count = station < 10 ? 1 : 2;
    talk.rounds(count, (at) => talk.answered(at + station, station, 0));
  }
  const lanes = lanesOf(talk);
  const shown = lanes.between(0, RATE, BINS);
  assert.equal(shown.length, 24);
  assert.equal(lanes.stations.length, 40);
  assert.deepEqual([shown.at(-1)?.name, shown.at(-1)?.about], ["others", "17 stations"]);
  const commands = shown.flatMap(({ tracks }) => tracks.filter(({ id }) => id === "command"));
  assert.equal(commands.reduce((sum, { total }) => sum + total, 0), 10 + 2 * 30);
  const { firsts } = talk.listing;
  const others = shown.at(-1)?.tracks[0].marks?.map(({ row }) => firsts[row]) ?? [];
  assert.deepEqual(others, [...others].sort((one, other) => one - other), "the shared lane is in order");
});

test("gaps are in the lane of their station, as far as they are in view", () => {
  const gaps = new Map([[1, [{ first: 100, past: 500, text: "no type 0 for 2.6 ms" }]]]);
  const lanes = lanesOf(new Talk().answered(0, 1, 0).answered(0, 2, 0), gaps);
  assert.deepEqual(lanes.between(0, 600, BINS).map((lane) => lane.gaps.length), [1, 0]);
  assert.deepEqual(lanes.between(500, 600, BINS).map((lane) => lane.gaps.length), [0, 0]);
});

test("an empty listing has no lane", () => {
  assert.deepEqual([lanesOf(new Talk()).between(0, 1, BINS), lanesOf(new Talk()).range], [[], [0, 1]]);
});

test("a million lines are put in order within a second of the processor", (context) => {
  const { listing } = new Talk();
  for (let at = 0; at < 1_000_000; at++) listing.addStation(1, 100 * at, 100 * at + 41, at % 4 === 0 ? 7 : 5, at % 20, 0);
  const begin = process.cpuUsage();
  const lanes = new Lanes(listing, new Map(), NO_NAMES);
  const { user, system } = process.cpuUsage(begin);
  const milliseconds = (user + system) / 1000;
  assert.equal(lanes.lanes.reduce((sum, { tracks }) => sum + tracks[0].rows.length, 0), 250_000);
  assert.ok(milliseconds < 1000, `${milliseconds} ms`);
  context.diagnostic(`${Math.round(milliseconds)} ms`);
});
