// What becomes doubtful while a recording comes: once each, with the places at which it was made so.

import assert from "node:assert/strict";
import { test } from "node:test";
import { RATE } from "../port1.js";
import { Events } from "../recording/events.js";
import { Losses } from "../recording/losses.js";
import { Moments } from "../recording/moments.js";
import { sampled } from "../system/sampler.js";

const NAMES = ["TXC", "TXD", "RXC", "RXD"];
const [HALF, TICKS] = [4, 8 * RATE];

/** Runs of both lines, whose bits are eight samples, for as long as clock and data are asked for. */
class Wires {
  data = 0b1010;
  records = [];
  bit = 0;

  run(levels, count) {
    this.records.push(levels + 256 * count, 0);
    assert.ok(count < 2 ** 24);
  }

  /** A rise of the first clock too many: two samples before that of the next bit. */
  pulse() {
    this.run(this.data, HALF - 2);
    this.run(this.data | 0b0001, 1);
    this.run(this.data, 1);
    this.run(this.data | 0b0101, HALF);
    this.bit++;
  }

  /** Bits for some seconds; the data of a wire that is at rest stands. */
  go(seconds, resting = 0) {
    for (let count = Math.round(seconds * RATE); count > 0; count--, this.bit++) {
      if (this.bit % 3 === 0) this.data ^= 0b1010 & ~resting;
      this.run(this.data, HALF);
      this.run(this.data | 0b0101, HALF);
    }
  }

  take() {
    const octets = Buffer.from(Uint32Array.from(this.records).buffer);
    this.records = [];
    return octets;
  }
}

const samplesIn = (piece) => {
  const numbers = new Uint32Array(piece.buffer, piece.byteOffset, piece.length / 4);
  return numbers.reduce((sum, low, at) => sum + (at % 2 === 0 ? low >>> 8 : 0), 0);
};

/** The pieces of some parts, a quarter of a second or less each. */
function* piecesOf(parts) {
  const wires = new Wires();
  for (const { seconds, stop = 0, resting = 0, pulses = 0 } of parts) {
    if (stop > 0) wires.run(wires.data, Math.round(stop * TICKS));
    for (let count = 0; count < pulses; count++) wires.pulse();
    if (stop > 0.25) yield wires.take();
    for (let left = seconds; left > 0; left -= 0.25) {
      wires.go(Math.min(left, 0.25), resting);
      yield wires.take();
    }
  }
}

/** What is told of parts, each with the second after which it is: a piece goes in when the one before was looked at. */
async function eventsOf(parts, rising = true) {
  const [events, losses] = [new Events(NAMES, rising), new Losses(0, false)];
  /** @type {string[]} */
  const told = [];
  let [given, reached, goOn] = [0, 0, (/** @type {any} */ _) => {}];
  async function* pieces() {
    for (const piece of piecesOf(parts)) {
      given += samplesIn(piece);
      losses.takeRuns(piece, 0);
      yield piece;
      while (reached < given) await new Promise((done) => (goOn = done));
    }
  }
  const look = (facts) => {
    reached = facts.samples;
    const texts = events.look(facts, new Moments(TICKS), losses);
    told.push(...texts.map((text) => `${(given / TICKS).toFixed(2)}: ${text}`));
    goOn(null);
  };
  const recording = /** @type {any} */ ({ hasRuns: true, width: 8, wires: [0, 1, 2, 3], pieces: pieces() });
  const words = ["--hold=0", "--jump=3", ...(rising ? [] : ["--falling"])];
  for await (const bits of sampled(recording, words, look)) assert.notEqual(bits.length, 0);
  return told;
}

const JUMPS = "the edges of TXC jump: its wire has glitches, or samples were lost";
const LOST = "the analyser lost samples: TXC is out of step from place 153600 on (at 1.000013 s)";

// The clock rises half a bit, 0.000003 s, after each bit begins. Of 153600 bits the data changes last with bit 153597.
const CASES = [
  ["a good recording", [{ seconds: 12 }], []],
  ["a clock that stops, and goes on", [{ seconds: 2 }, { stop: 0.5, seconds: 3 }], [
    "2.50: TXC stops (at 1.999997 s)",
    "2.75: TXC goes on (after 0.500007 s, at 2.500003 s)",
  ]],
  ["a stop between two looks", [{ seconds: 1 }, { stop: 0.0125, seconds: 1 }], [
    "1.26: TXC stops (for 0.012507 s from 0.999997 s on)",
  ]],
  ["a shorter stop after a longer one", [{ seconds: 1 }, { stop: 0.5, seconds: 1 }, { stop: 0.4, seconds: 1 }], [
    "1.50: TXC stops (at 0.999997 s)",
    "1.75: TXC goes on (after 0.500007 s, at 1.500003 s)",
    "2.90: TXC stops (at 2.499997 s)",
    "3.15: TXC goes on (by 2.900010 s)",
  ]],
  ["samples lost", [{ seconds: 1 }, { stop: 0.00001, seconds: 1 }], [`1.25: ${LOST}`]],
  ["samples lost before a look", [{ seconds: 1 }, { stop: 0.00001, seconds: 0.001 }, { seconds: 1 }], [
    `1.25: ${LOST}`,
  ]],
  ["samples lost twice", [{ seconds: 1 }, { stop: 0.00001, seconds: 0.125 }, { stop: 0.00001, seconds: 1 }], [
    `1.13: ${LOST}`,
    "1.38: the analyser lost samples: TXC is out of step from place 172800 on (at 1.125023 s)",
  ]],
  ["a pulse behind lost samples", [{ seconds: 1 }, { stop: 0.00001, seconds: 0.125 }, { pulses: 1, seconds: 1 }], [
    `1.13: ${LOST}`,
    `1.38: ${JUMPS} (2 times, last at 1.125020 s)`,
  ]],
  ["a pulse on the clock", [{ seconds: 1 }, { pulses: 1, seconds: 1 }], [
    `1.25: ${JUMPS} (2 times, last at 1.000010 s)`,
  ]],
  ["a pulse before a look", [{ seconds: 1 }, { pulses: 1, seconds: 0.001 }, { seconds: 1 }], [
    `1.25: ${JUMPS} (2 times, last at 1.000010 s)`,
  ]],
  ["pulses all the time", [{ seconds: 1 }, { pulses: 2, seconds: 0.001 }, { pulses: 1, seconds: 0.001 }], [
    `1.00: ${JUMPS} (6 times, last at 1.001025 s)`,
  ]],
  ["data that rests for ten seconds", [{ seconds: 1 }, { seconds: 11, resting: 0b1000 }, { seconds: 11 }], [
    "11.00: RXD has not changed since 0.999980 s",
  ]],
];

for (const [name, parts, wanted] of CASES) {
  test(name, async () => assert.deepEqual(await eventsOf(parts), wanted));
}

test("the wrong edge is told once, when ten seconds have come", async () => {
  const edge = (wire) => `10.00: the data changes at the edge of ${wire} that is taken: try it without --falling`;
  assert.deepEqual(await eventsOf([{ seconds: 21 }], false), [edge("TXC"), edge("RXC")]);
});
