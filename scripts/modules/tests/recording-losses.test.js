// Samples that the analyser lost, of simulated clocks whose truth is known: each is told near its place, and nothing else.

import assert from "node:assert/strict";
import { test } from "node:test";
import { RATE } from "../port1.js";
import { Losses } from "../recording/losses.js";
import { randomOf } from "./support/random.js";

/** Bits of a recording, and how near to its place a loss is told. */
const BITS = 12_000;
const NEAR = 200;

/** Samples a second, seconds by which an edge comes too soon or too late, and parts per million of the clock. */
const CLOCKS = [1e6, 2e6, 4e6, 8e6, 12e6, 24e6].flatMap((rate) =>
  [0, 250e-9].flatMap((jitter) => [-500, 80].map((ppm) => ({ rate, jitter, ppm }))),
);

/** The sample in which each edge of a clock is seen first, two for a bit. */
function edgesOf({ rate, jitter, ppm }, seed) {
  const random = randomOf(seed);
  const part = () => random.below(1e6) / 1e6;
  const [bit, phase] = [(rate / RATE) * (1 + ppm / 1e6), part()];
  return Array.from({ length: 2 * BITS }, (_, edge) => Math.ceil((edge / 2 + phase) * bit + (2 * part() - 1) * jitter * rate));
}

/** Edges, those of some samples left out and those behind them moved up. Where the level is then another, it changes. */
function without(edges, from, count) {
  const [before, behind] = [edges.filter((edge) => edge < from), edges.filter((edge) => edge >= from + count)];
  const isTurned = (edges.length - before.length - behind.length) % 2 === 1;
  return [...before, ...(isTurned ? [from] : []), ...behind.map((edge) => edge - count)];
}

/** The samples of a clock, an octet each. */
function samplesOf(edges) {
  const samples = new Uint8Array(edges[edges.length - 1]);
  edges.slice(0, -1).forEach((edge, at) => samples.fill(1 - (at % 2), edge, edges[at + 1]));
  return samples;
}

function followed(edges, rate) {
  const losses = new Losses(Math.floor(rate / RATE / 16), true);
  const samples = samplesOf(edges);
  for (let at = 0; at < samples.length; at += 65536) losses.takeSamples(samples.subarray(at, at + 65536), 1, 0);
  losses.end();
  return losses;
}

for (const [seed, clock] of CLOCKS.entries()) {
  const { rate, jitter, ppm } = clock;
  const name = `${rate / 1e6} MHz, ${jitter * 1e9} ns, ${ppm} ppm`;
  test(`no loss: ${name}`, () => {
    const { count, isCoarse } = followed(edgesOf(clock, seed), rate);
    assert.deepEqual([count, isCoarse], [0, false]);
  });
  test(`a loss of a part of a bit and more: ${name}`, () => {
    const random = randomOf(100 + seed);
    const edges = edgesOf(clock, seed);
    const from = edges[2 * random.between(1000, BITS - 1000)] + random.below(4);
    const lost = Math.round((rate / RATE) * (random.below(100) + random.between(20, 80) / 100));
    const { count, last } = followed(without(edges, from, lost), rate);
    assert.equal(count, 1);
    const sample = last?.sample ?? NaN;
    assert.ok(Math.abs(sample - from) < (NEAR * rate) / RATE, `${sample}, not ${from}`);
  });
}

test("a clock that stops, and goes on at another time of its bit", () => {
  const edges = edgesOf({ rate: 4e6, jitter: 0, ppm: 80 }, 7);
  const { count } = followed(edges.map((edge, at) => (at < 9000 ? edge : edge + 1234)), 4e6);
  assert.equal(count, 0);
});

test("few samples", () => {
  const isCoarse = [320e3, 614.4e3, 1e6].map((rate) => followed(edgesOf({ rate, jitter: 0, ppm: 80 }, 9), rate).isCoarse);
  assert.deepEqual(isCoarse, [true, false, false]);
});

test("stops of a clock are counted, each once, and shorter ones are none", () => {
  const clock = { rate: 4e6, jitter: 250e-9, ppm: 80 };
  const pause = (edges, edge, bits) => edges.map((time, at) => time + (at >= edge ? Math.round((bits * clock.rate) / RATE) : 0));
  const often = [3000, 8000, 8100, 20000].reduce((edges, edge) => pause(edges, edge, 40), edgesOf(clock, 7));
  const long = Math.round((41 * clock.rate) / RATE); // each stop, and the bit about it
  for (const edges of [often, pause(often, 12000, 10)]) {
    const { count, samples, longest, place } = followed(edges, clock.rate).stops;
    assert.equal(count, 4);
    assert.ok(Math.abs(samples - 4 * long) < 16 && Math.abs(longest - long) < 4, `${samples}, ${longest}`);
    assert.ok([3000, 8000, 8100, 20000].some((edge) => Math.abs(place - edge / 2) <= 1), `${place}`);
  }
});
