// The time of day of places, and input that is lost, by clocks that are made up.

import assert from "node:assert/strict";
import { test } from "node:test";

import { Incidents } from "../watch/incidents.js";
import { Wall, iso, zeroAt } from "../watch/wall.js";
import { randomOf } from "./support/random.js";

const RATE = 153600;

/** A wall whose clocks are told, and what it says while places come. */
class Made {
  time = 1000;
  shift = 1_800_000_000;
  place = 0;
  lost = [];
  ahead = 0; // seconds that the bits are behind the clock for good

  constructor(seed = 1) {
    this.random = randomOf(seed);
    this.wall = new Wall(0.5, { steady: () => this.time, wall: () => this.time + this.shift });
  }

  /** Bits come for so many seconds, each piece some milliseconds late; the crystal is off by parts in a million. */
  run(seconds, late = 0.03, ppm = 0) {
    for (const past = this.time + seconds; this.time < past; ) {
      this.time += 0.05;
      const sent = (this.time - 1000 - this.ahead - (late * this.random.below(1000)) / 1000) * (1 + ppm / 1e6);
      const lost = this.wall.take(Math.max(this.place, Math.floor(sent * RATE)));
      this.place = Math.max(this.place, Math.floor(sent * RATE));
      if (lost > 0) this.lost.push({ lost, time: this.time });
    }
    return this;
  }

  /** Nothing comes for a while, and later all of it. */
  stall(seconds) {
    this.time += seconds;
    return this;
  }

  /** What is sent meanwhile is lost. */
  lose(seconds) {
    this.ahead += seconds;
    return this.stall(seconds);
  }

  get error() {
    return this.wall.zero + this.place / RATE - (this.time + this.shift);
  }
}

test("a hundred losses are told with their length, and those below the limit are not", () => {
  for (let number = 1; number <= 100; number++) {
    const seconds = 0.05 * number;
    const made = new Made(number).run(30).lose(seconds).run(30);
    const told = made.lost.map(({ lost }) => lost);
    assert.equal(told.length, seconds >= 0.51 ? 1 : seconds < 0.47 ? 0 : told.length, `${seconds} s: ${told}`);
    for (const { lost, time } of made.lost) {
      assert.ok(Math.abs(lost - seconds) < 0.03, `${lost} for ${seconds} s`);
      assert.ok(time < 1030 + seconds + 20, `told after ${time - 1030} s`);
    }
  }
});

test("what comes late and is caught up is not lost", () => {
  for (const seconds of [0.4, 1, 5, 20, 600]) assert.deepEqual(new Made().run(30).stall(seconds).run(30).lost, []);
});

test("what is caught up within some seconds is not lost", () => {
  const made = new Made().run(30).lose(5);
  for (let count = 0; count < 40; count++) {
    made.ahead -= 5 / 40;
    made.run(0.2);
  }
  assert.deepEqual(made.run(30).lost, []);
});

test("a crystal that is off is followed, for a day", () => {
  for (const ppm of [-100, 100]) {
    const made = new Made().run(3600, 0.03, ppm);
    assert.deepEqual(made.lost, []);
    assert.ok(Math.abs(made.error) < 0.05, `${ppm}: ${made.error}`);
  }
});

test("a clock that is set is told, is no loss, and moves times", () => {
  for (const step of [3600, -3600, 0.7]) {
    const made = new Made().run(30);
    made.shift += step;
    assert.ok(Math.abs(made.wall.set() - step) < 1e-6);
    assert.equal(made.wall.set(), 0);
    assert.deepEqual(made.run(30).lost, []);
    assert.ok(Math.abs(made.error) < 0.05, `${made.error}`);
  }
});

test("a clock that is slowly led is not told", () => {
  const made = new Made().run(30);
  for (let count = 0; count < 100; count++) {
    made.shift += 0.01;
    assert.equal(made.wall.set(), 0);
  }
});

test("another recording has a clock of its own, and until it comes the one before holds", () => {
  const made = new Made().run(30);
  const before = made.error;
  made.time += 100;
  made.wall.restart();
  assert.ok(Math.abs(made.error + 100 - before) < 1e-6);
  made.ahead += 100;
  assert.deepEqual(made.run(30).lost, []);
  assert.ok(Math.abs(made.error) < 0.05, `${made.error}`);
});

test("a time as ISO 8601 has it", () => assert.equal(iso(1795748400.25), "2026-11-27T03:00:00.250Z"));

/** A watch of a made wall, incidents at true times of day, in seconds after the beginning, and what is told of them. */
function watchOf(seconds, lost, after) {
  const made = new Made(5).run(30);
  const records = [];
  const office = {
    zero: (place) => zeroAt(made.wall, place),
    settled: () => made.wall.settled,
    ...{ keep() {}, log() {} },
    save: (incident) => records.push(incidents.recordOf(incident)),
  };
  const incidents = new Incidents(1, { after, longest: 120 }, office);
  made.lose(lost);
  for (const second of seconds) {
    const ahead = second < 30 ? 0 : lost;
    const place = Math.round((second - ahead) * RATE);
    runUntil(made, second + 0.1, incidents);
    incidents.tick(place);
    incidents.trigger(`burst ${second}`, place, place + 10);
    incidents.tick(made.place - RATE / 5);
  }
  return { made, incidents, records };
}

/** Runs a watch until a second, and marks what was lost, as a watch does. */
function runUntil(made, second, incidents) {
  while (made.time < 1000 + second) {
    made.run(Math.min(0.5, 1000 + second - made.time));
    made.lost.splice(0).forEach(() => incidents.seam(made.wall.steps.at(-1).place));
    incidents.tick(made.place - RATE / 5);
  }
}

/** What is told of incidents once all is known. */
function toldOf(seconds, lost, after) {
  const { made, incidents, records } = watchOf(seconds, lost, after);
  runUntil(made, 90, incidents);
  const timeOf = (wall) => Date.parse(wall) / 1000;
  return records.map(({ wall, causes, seam = false }) => ({ wall: timeOf(wall), causes: Object.keys(causes), seam }));
}

/** What is kept of two seconds that were lost and of incidents, where nothing comes after some second. */
function keptAt(until, seconds) {
  const { made, incidents } = watchOf(seconds, 2, 1);
  runUntil(made, until, incidents);
  const { wall, place } = made;
  incidents.finish(place);
  incidents.close();
  const { zero, zeros } = wall.atEnd;
  const unsettled = wall.settled < place ? [wall.settled] : [];
  const { waiting } = incidents.kept((at) => zeroAt({ zero, zeros }, at), unsettled);
  const timeOf = ({ zero, first }) => zero + first / RATE - 1000 - made.shift;
  const told = waiting.map((incident) => ({ time: timeOf(incident), seam: incident.seam ?? false }));
  return { told, lost: wall.settle(), after: wall.zero - zero, seam: wall.zeros[0]?.place };
}

test("times after lost input are right, and what lies beside the loss is marked", () => {
  const seconds = [29.2, 32.4, 34.5, 36.5, 38.7, 40.9, 43.1, 45.2];
  const told = toldOf(seconds, 2, 1);
  assert.deepEqual(told.map(({ causes }) => causes), seconds.map((second) => [`burst ${second}`]));
  told.forEach(({ wall }, at) => {
    const late = wall - (1000 + 1_800_000_000 + seconds[at]);
    assert.ok(Math.abs(late) < 0.1, `${seconds[at]} s is ${late} s late`);
  });
  assert.deepEqual(told.map(({ seam }) => seam), [true, true, false, false, false, false, false, false]);
});

const ENDS = /** @type {[until: number, wanted: string][]} */ ([
  ...[[32.6, "marked"], [33.6, "known at the end"], [36, "known at the end"], [41, "known at the end"]],
  [45, "known before"],
]);

for (const [until, wanted] of ENDS) {
  test(`input that was lost at 30 s, where nothing comes after ${until} s, is ${wanted}`, () => {
    const second = Number(until) - 0.4;
    const { told: [{ time, seam }], lost, after, seam: place } = keptAt(Number(until), [second]);
    assert.ok(Math.abs(after) < 1e-6, `${after}`);
    assert.equal(seam, second < 33);
    assert.ok(Math.abs(lost - (wanted === "known at the end" ? 2 : 0)) < 0.1, `${lost} s`);
    if (wanted === "marked") return;
    assert.ok(Math.abs(place / RATE - 30) < 0.1, `lost at ${place}`);
    assert.ok(Math.abs(time - second) < 0.1, `${time}`);
  });
}

test("what was late and is being caught up where nothing comes any more is not lost", () => {
  for (const [rate, before] of [[1.6, 0], [2, 0], [10, 0], [1.6, 0.6], [10, 0.6]]) {
    const made = new Made().run(30);
    made.ahead = before; // it was late before it stalled, too
    made.run(0.5).lose(5);
    for (let left = 5; left > 0.7; left -= (rate - 1) * 0.2) {
      made.ahead = left;
      made.run(0.2);
    }
    assert.equal(made.wall.settle(), 0);
    assert.ok(Math.abs(made.wall.zero - (1000 + made.shift)) < 0.1);
  }
});

test("times without a loss are told at once", () => {
  const seconds = [29.5, 32.4, 34.5];
  toldOf(seconds, 0, 1).forEach(({ wall, seam }, at) => {
    assert.ok(Math.abs(wall - (1000 + 1_800_000_000 + seconds[at])) < 0.1);
    assert.equal(seam, false);
  });
});
