// Times of day: worked out by hand from when place 0 was.

import assert from "node:assert/strict";
import { test } from "node:test";
import { Clock } from "../src/view/clock.js";

const RATE = 153600;

const [NOON, NIGHT] = ["2026-11-27T12:00:00Z", "2026-11-27T23:59:58.750Z"];

const FINE = "2026-11-27T12:00:00.123459Z";

/** Of a recording that began late in a run: the day is that of its beginning. */
const LATE = new Clock(RATE, { text: NOON, late: 3 * 86400 + 0.0005 });

const TIMES = [
  { clock: new Clock(RATE), place: 1536, stretch: RATE, wanted: "0.010 s" },
  { clock: new Clock(RATE, { text: NOON, late: 0 }), place: 1536, stretch: RATE, wanted: "12:00:00.010" },
  { clock: new Clock(RATE, { text: NOON, late: 0 }), place: 24, stretch: 153.6, wanted: "12:00:00.000156" },
  { clock: new Clock(RATE, { text: NIGHT, late: 0 }), place: 1.25 * RATE, stretch: RATE, wanted: "2026-11-28 00:00:00.000" },
  { clock: new Clock(RATE, { text: NOON, late: 0 }), place: 154_368, stretch: RATE, wanted: "12:00:01.005" },
  { clock: new Clock(RATE, { text: FINE, late: 0 }), place: 0, stretch: 153.6, wanted: "12:00:00.123459" },
  { clock: LATE, place: RATE, stretch: RATE / 1000, wanted: "12:00:01.000500" },
  { clock: new Clock(RATE, { text: "2026-11-27T23:00:00-05:00", late: 0 }), place: 0, stretch: RATE, wanted: "23:00:00.000" },
];

for (const { clock, place, stretch, wanted } of TIMES) {
  test(`place ${place} is ${wanted}`, () => assert.equal(clock.moment(place, stretch), wanted));
}

test("each 5 ms, which are 768 bits, are a whole number of milliseconds", () => {
  const clock = new Clock(RATE, { text: NOON, late: 0 });
  for (let at = 0; at < 12000; at += 1) {
    const digits = clock.at(768 * at).slice(-6);
    assert.equal(digits, String((5000 * at) % 1_000_000).padStart(6, "0"), `${768 * at}`);
  }
});

test("the listing has no date, and the head has", () => {
  const clock = new Clock(RATE, { text: NIGHT, late: 0 });
  assert.equal(clock.time(1.25 * RATE), "00:00:00.000000");
  assert.equal(clock.begin, "2026-11-27 23:59:58.750 UTC");
  assert.equal(LATE.begin, "2026-11-30 12:00:00.000 UTC");
});

const NAMED = [
  { text: "2.5", wanted: 2.5 * RATE },
  { text: "23:59:59", wanted: 0.25 * RATE },
  { text: "00:00:01.5", wanted: 2.75 * RATE },
  { text: "0:01", wanted: 61.25 * RATE },
  { text: "at noon", wanted: null },
];

for (const { text, wanted } of NAMED) {
  test(`${text} names the place ${wanted}`, () =>
    assert.equal(new Clock(RATE, { text: NIGHT, late: 0 }).placeOf(text), wanted));
}

test("a time names no place where it is not known when the recording was", () => {
  assert.equal(new Clock(RATE).placeOf("12:00:00"), null);
});

const AXES = [
  { past: 20, count: 8, wanted: ["00:00:00", "00:00:02", "00:00:04"], from: 1.25, step: 2 },
  { past: 7200, count: 8, wanted: ["00:00", "00:15"], from: 1.25, step: 900 },
  { past: 0.4, count: 8, wanted: ["23:59:58.80", "23:59:58.85"], from: 0.05, step: 0.05 },
  { past: 0.0004, count: 8, wanted: [":58.75005", ":58.75010"], from: 0.00005, step: 0.00005 },
];

for (const { past, count, wanted, from, step } of AXES) {
  test(`an axis of ${past} s begins with ${wanted[0]}`, () => {
    const ticks = [...new Clock(RATE, { text: NIGHT, late: 0 }).ticks(1, past * RATE, count)];
    const isEven = ticks.length >= count / 3 && ticks.length <= 2 * count;
    assert.ok(isEven, `${ticks.length} ticks`);
    assert.deepEqual(ticks.slice(0, wanted.length).map(([, label]) => label), wanted);
    ticks.forEach(([place], at) => assert.ok(Math.abs(place - (from + at * step) * RATE) < 0.01, `${place}`));
  });
}
