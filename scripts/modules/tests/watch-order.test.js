// What is told of an input is the same however fast it comes.

import assert from "node:assert/strict";
import { test } from "node:test";

import { RATE } from "../port1.js";
import { Incidents } from "../watch/incidents.js";
import { SURE, Triggers } from "../watch/triggers.js";
import { rowsOf, talkOf } from "./support/talk.js";
import { randomOf } from "./support/random.js";

const SECONDS = 100;

const FAULTS = /** @type {import("./support/talk.js").Faults} */ ([
  ...[["silent", 4, 5], ["unasked", 16.4, 16.9], ["rest", 30, 31.5], ["silent", 41.9, 42.4], ["burst", 54.1, 54.4]],
  ...[["rest", 65.9, 67.1], ["unasked", 65.2, 66.2]],
  ...[["silent", 78, 79], ["burst", 79.1, 79.3], ["unasked", 78.9, 79.3]],
]);

const LINES = talkOf(SECONDS, FAULTS);
const ROWS = rowsOf(LINES.map(({ text }) => text)).map((row, at) => ({ row, at: LINES[at].at }));

/** What is told, sorted, where pieces of the input come that are so long at most, in seconds. */
function toldBy(longest, after, seed) {
  const random = randomOf(seed);
  /** @type {any[]} */
  const told = [];
  const [log, save] = [(record) => told.push(record), (one) => told.push(incidents.recordOf(one))];
  const office = { zero: () => 0, keep() {}, log, save };
  const incidents = new Incidents(1, { after, longest: 120 }, office);
  const triggers = new Triggers({
    trigger: (cause, first, past) => incidents.trigger(cause, first, past),
    wellAgain: (about, first, past, since) => incidents.wellAgain(about, first, past, since),
  }, new Map());
  const past = SECONDS * RATE;
  for (let [place, at] = [0, 0]; place < past; ) {
    place = Math.min(past, place + 1 + random.below(longest * RATE));
    const from = at;
    while (at < ROWS.length && ROWS[at].at <= place) at += 1;
    triggers.hear(ROWS.slice(from, at).map(({ row }) => row));
    triggers.tick(place - SURE);
    incidents.tick(place);
  }
  triggers.tick(past);
  incidents.finish(past);
  incidents.close();
  incidents.settle(Infinity);
  return told.sort((one, other) => (JSON.stringify(one) < JSON.stringify(other) ? -1 : 1));
}

for (const after of [1, 3, 10]) {
  test(`an input in pieces of any size has the same incidents, joined within ${after} s`, () => {
    const wanted = toldBy(0.05, after, 1);
    const incidents = wanted.filter(({ causes }) => causes !== undefined);
    assert.equal(incidents.length, 7);
    for (const [number, longest] of [0.1, 0.3, 1, 3, 5, 12, 30, 60, 100].entries()) {
      for (const seed of [2, 3, 4]) {
        assert.deepEqual(toldBy(longest, after, 10 * number + seed), wanted, `${longest} s`);
      }
    }
  });
}

test("what is well again is told, also where its end is heard with its beginning", () => {
  const kinds = toldBy(100, 10, 1).filter(({ event }) => event === "well again").map(({ kind, line }) => kind ?? line);
  const gaps = FAULTS.filter(([kind]) => kind === "unasked" || kind === "rest"); // of which two are one
  assert.equal(kinds.filter((kind) => kind === "1/1").length, gaps.length - 1);
  assert.equal(kinds.filter((kind) => kind === "both").length, 2);
});
