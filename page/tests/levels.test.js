// Warnings of the data of a recording, by the level at which it rests.

import assert from "node:assert/strict";
import { test } from "node:test";
import { KeptMarks } from "../src/engine/marks.js";
import { warningsOfLevels } from "../src/worker/levels.js";
import { Talk } from "../../scripts/modules/tests/support/bus_traffic.js";

const WIRES = ["TXC", "TXD", "RXC", "RXD"];

/** Bits of lines, of each always the same eight; with a clock each, one arrives after the other. */
function bitsOf(...octets) {
  const bits = new KeptMarks(octets.length > 1 ? "arrivals" : 1);
  for (let at = 0; at < 24000; at++) octets.forEach((octet, line) => bits.packer.add(2 * line + ((octet >> (at & 7)) & 1)));
  bits.end();
  return bits;
}

const [REST, ZERO, MOSTLY_ONES, MOSTLY_ZEROS] = [0xff, 0, 0x7e, 0x81];
const NOTHING = new Talk().listing;
const FRAMES = new Talk().frame(1, 1, 1, 0).frame(2, 3, 1, 128).listing;

/** @type {[string, string[], KeptMarks, import("../../scripts/modules/listing/listing.js").Listing, string[]][]} */
const CASES = [
  ["both well", WIRES, bitsOf(MOSTLY_ONES, MOSTLY_ONES), FRAMES, []],
  ["both well, without frames", WIRES, bitsOf(MOSTLY_ONES, MOSTLY_ONES), NOTHING, []],
  ["mostly zeros, but with frames", WIRES, bitsOf(MOSTLY_ZEROS, MOSTLY_ZEROS), FRAMES, []],
  ["the commands inverted", WIRES, bitsOf(MOSTLY_ZEROS, MOSTLY_ONES), NOTHING, ["1 inverted TXD"]],
  ["the answers inverted", WIRES, bitsOf(MOSTLY_ONES, MOSTLY_ZEROS), NOTHING, ["2 inverted RXD"]],
  ["a dead wire at 1, and one at 0", WIRES, bitsOf(REST, ZERO), NOTHING, []],
  ["one clock for both", ["C", "A", "B"], bitsOf(MOSTLY_ONES, MOSTLY_ZEROS), NOTHING, ["2 inverted B"]],
  ["one line", ["C", "A"], bitsOf(MOSTLY_ZEROS), NOTHING, ["1 inverted A"]],
  ["no bit", WIRES, new KeptMarks("arrivals"), NOTHING, []],
];

for (const [name, channels, bits, listing, wanted] of CASES) {
  test(name, () => {
    const found = warningsOfLevels(channels, bits, listing);
    assert.deepEqual(found.map(({ line, sort, name: channel }) => `${line} ${sort} ${channel}`), wanted);
  });
}
