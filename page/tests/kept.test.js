// Marks that are kept: they are decoded again as they came, and stand where they did.

import assert from "node:assert/strict";
import { test } from "node:test";
import { FORMS } from "../../scripts/modules/capture/forms.js";
import { BLOCK, KeptMarks } from "../src/engine/marks.js";

/** Kept marks of a text. */
function keptOf(kind, text) {
  const kept = new KeptMarks(kind);
  for (const mark of text) kept.packer.add(FORMS[kind].marks.indexOf(mark));
  kept.end();
  return kept;
}

/** The marks that another decoder gets, as a text. */
function replayed(kept) {
  const { marks, width } = FORMS[kept.kind];
  let found = "";
  kept.replay({
    take: (octets, count) => {
      for (let at = 0; at < count * width; at += width) {
        found += marks[(octets[at >> 3] >> (at & 7)) & ((1 << width) - 1)];
      }
    },
  });
  return found;
}

/** Bits of a line, with their places. */
const shown = (kept, line, first, past) => kept.between(line, first, past).map(({ place, digit }) => `${place}:${digit}`).join(" ");

/** @type {[import("../src/engine/marks.js").Kind, string, number, number[], number[], string[]][]} marks, how many places there are, bits and ones of either line, and all bits of both with their places. */
const CAPTURES = [
  [1, "0110 1", 5, [5, 5], [3], ["0:0 1:1 2:1 3:0 4:1", ""]],
  [2, "0123 3", 5, [5, 5], [3, 3], ["0:0 1:1 2:0 3:1 4:1", "0:0 1:0 2:1 3:1 4:1"]],
  ["arrivals", "", 0, [0, 0], [0, 0], ["", ""]],
  ["arrivals", "0101", 4, [4, 0], [2, 0], ["0:0 1:1 2:0 3:1", ""]],
  ["arrivals", "oi", 0, [0, 2], [0, 1], ["", "0:0 0:1"]],
  ["arrivals", "oi1o0i1", 3, [3, 4], [2, 2], ["0:1 1:0 2:1", "0:0 0:1 0:0 1:1"]],
];

for (const [kind, given, length, counts, ones, lines] of CAPTURES) {
  test(`marks ${given} of ${kind}`, () => {
    const marks = given.replaceAll(" ", "");
    const kept = keptOf(kind, marks);
    assert.equal(replayed(kept), marks);
    assert.deepEqual([kept.length, kept.counts, kept.isWhole], [length, counts, true]);
    assert.deepEqual(kept.ones.slice(0, ones.length), ones);
    assert.deepEqual([0, 1].map((line) => shown(kept, line, -9, 99)), lines);
  });
}

test("marks of more than a block, and where each stands", () => {
  for (const kind of /** @type {const} */ ([1, 2, "arrivals"])) {
    const inOctet = 8 / FORMS[kind].width;
    const count = 2 * inOctet * BLOCK + 13;
    const kept = new KeptMarks(kind);
    for (let at = 0; at < count; at++) kept.packer.add(at % 3 === 0 ? 1 : 0);
    kept.end();
    let marks = 0;
    kept.replay({ take: (octets, some) => (marks += some) });
    assert.deepEqual([marks, kept.length, kept.ones[0]], [count, count, Math.ceil(count / 3)]);
    for (const first of [0, 4095, inOctet * 4096 - 1, inOctet * BLOCK - 1, inOctet * BLOCK, count - 3]) {
      const wanted = [first, first + 1, first + 2].map((place) => ({ place, digit: place % 3 === 0 ? 1 : 0 }));
      assert.deepEqual(kept.between(0, first, first + 3), wanted);
    }
  }
});
