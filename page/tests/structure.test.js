// What the bits of a frame are: its octets, the flags about it, and the zeros that the sender put in.

import assert from "node:assert/strict";
import { test } from "node:test";
import { KeptMarks } from "../src/engine/marks.js";
import { ListingReader } from "../../scripts/modules/listing/read.js";
import { structureOf } from "../src/worker/structure.js";

const FLAG = "01111110";

/** The octets 10 83 00 fd e5, lowest bits first; after five ones, in fd, comes a zero. */
const FRAME = "00001000" + "11000001" + "00000000" + "1011111" + "0" + "1" + "10100111";

/** Bits of two lines, of which the first rests. */
function keptOf(text) {
  const bits = new KeptMarks(2);
  for (const bit of text) bits.packer.add(1 + 2 * Number(bit));
  bits.end();
  return bits;
}

function listed(text) {
  const reader = new ListingReader();
  reader.take(new TextEncoder().encode(`${text}\n`));
  return reader.end();
}

test("octets, flags and the zero after five ones", () => {
  const bits = keptOf(FLAG + FRAME + FLAG);
  const { line, parts, zeros } = structureOf(listed("2 8 49 frame 108300fde5"), bits, 0);
  assert.equal(line, 2);
  assert.deepEqual(zeros, [8 + 24 + 7]);
  assert.deepEqual(parts.map(({ text }) => text), ["flag", "flag", "10", "83", "00", "fd", "e5"]);
  assert.deepEqual(parts.map(({ first }) => first), [0, 49, 8, 16, 24, 32, 41]);
  assert.deepEqual(parts.map(({ past }) => past), [8, 57, 16, 24, 32, 41, 49]);
});

test("where the capture begins or ends at a frame, there is no flag", () => {
  const { parts } = structureOf(listed("2 0 41 frame 108300fde5"), keptOf(FRAME), 0);
  assert.deepEqual(parts.map(({ text }) => text), ["10", "83", "00", "fd", "e5"]);
});

test("of a line with a clock of its own, each bit stands where it arrived", () => {
  const bits = new KeptMarks("arrivals");
  const from = 100; // the first line's last bit before the second line's first
  for (let place = 0; place < from; place++) bits.packer.add(1);
  [...(FLAG + FRAME + FLAG)].forEach((bit, at) => {
    if (at !== 20) bits.packer.add(1); // there are two bits of the second line at one place
    bits.packer.add(2 + Number(bit));
  });
  bits.end();
  assert.deepEqual(bits.between(1, 0, from + 2).map(({ place, digit }) => [place - from, digit]), [[0, 0], [1, 1]]);
  const { parts, zeros } = structureOf(listed(`2 ${from + 8} ${from + 48} frame 108300fde5`), bits, 0);
  assert.deepEqual(zeros, [from + 8 + 24 + 7 - 1]);
  assert.deepEqual(parts.map(({ text }) => text), ["flag", "flag", "10", "83", "00", "fd", "e5"]);
  assert.deepEqual(parts.map(({ first }) => first - from), [0, 48, 8, 16, 23, 31, 40]);
  assert.deepEqual(parts.map(({ past }) => past - from), [8, 56, 16, 23, 31, 40, 48]);
});
