import assert from "node:assert/strict";
import { readFileSync } from "node:fs";
import { test } from "node:test";
import { inPieces, taken } from "./recording-helpers.js";

/** Recordings in pieces. */

const TOP = new URL("../../../", import.meta.url);

function example(name) {
  return readFileSync(new URL(`examples/${name}`, TOP));
}

/** @type {[string, import("../recording/forms.js").Form, string[], number][]} */
const CUT = [
  ["four-wires.csv", "csv", ["TXC", "TXD", "RXC", "RXD"], 3000],
  ["call-and-reply.vcd", "vcd", ["clk", "tx", "rx"], 1500],
];

/** Wherever a recording is cut into two pieces, and in pieces of an octet each, the outcome is the same. */
for (const [name, form, channels, length] of CUT) {
  test(`${name} in pieces`, async () => {
    const input = example(name).subarray(0, length);
    const wanted = await taken([input], { form, channels });
    assert.deepEqual(await taken(inPieces(input, 1), { form, channels }), wanted);
    for (let cut = 0; cut <= input.length; cut++) {
      const pieces = [input.subarray(0, cut), input.subarray(cut)];
      assert.deepEqual(await taken(pieces, { form, channels }), wanted, `cut at ${cut}`);
    }
  });
}

const BITS = "01111110000010001100000100000000101111101101001110111111011";
const SAMPLES = Array.from(BITS).flatMap((bit) => [2 * Number(bit), 1 + 2 * Number(bit)]);

/** Samples of several octets, of which the last has clock and data, wherever the pieces end. */
for (const width of [1, 2, 3, 8]) {
  test(`samples of ${width} octets in pieces`, async () => {
    const octets = Uint8Array.from(SAMPLES.flatMap((sample, at) => [...Array(width - 1).fill(at & 255), sample]));
    const names = Array.from({ length: 8 * width }, (_, at) => String(at));
    const channels = names.slice(-8, -6);
    for (let size = 1; size < 3 * width + 2; size++) {
      const samples = { names, width, ticks: null };
      const got = await taken(inPieces(octets, size), { form: "binary", channels, samples });
      assert.deepEqual(got, { bits: BITS, fault: null }, `pieces of ${size}`);
    }
  });
}
