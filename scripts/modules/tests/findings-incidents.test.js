// Where a cause of an incident is, in listings whose lines stand here.

import assert from "node:assert/strict";
import { test } from "node:test";
import { placeOfCause } from "../findings/incidents.js";
import { ListingReader } from "../listing/read.js";

/** Station 2 is asked type 0 each 100 places, but not from 300 to 600; station 1 type 7 at 410. */
const LINES = [
  "1 0 41 frame 028300fde5 station 2 type 0 call",
  "2 50 91 frame 028380f561 station 2 type 128 reply",
  "1 100 141 frame 028300fde5 station 2 type 0 call",
  "1 0 41 missing station 2 type 0",
  "1 200 241 frame 028300fde5 station 2 type 0 call",
  "1 100 141 missing station 2 type 0",
  "1 300 341 frame 028300fde5 station 2 type 0 call",
  "1 410 451 frame 018307fde5 station 1 type 7 other",
  "2 460 470 damaged short",
  "2 480 490 abort",
  "1 600 641 frame 028300fde5 station 2 type 0 call",
  "1 800 841 frame 028300fde5 station 2 type 0 call",
];

/**
 * A cause, the incident's places, and where it is: the row, and the places; or nothing.
 * @type {[string, [number, number], [number, number, number]|null][]}
 */
const CASES = [
  ["missing 2/0", [0, 600], [3, 0, 141]],
  ["missing 2/0", [90, 600], [5, 100, 141]],
  ["missing 1/7", [0, 600], null],
  ["late 2/0", [0, 600], null],
  ["gap 2/0", [300, 700], [6, 300, 600]],
  ["gap 2/0", [0, 250], [0, 0, 100]],
  ["gap 2/0", [700, 1900], [11, 800, 1900]],
  ["gap 1/7", [300, 900], [7, 410, 900]],
  ["gap 9/9", [300, 900], null],
  ["burst", [300, 700], [8, 460, 490]],
  ["rest", [300, 640], [9, 490, 600]],
  ["rest", [300, 900], [10, 641, 800]],
  ["rest", [300, 1001], [11, 841, 1001]],
  ["a cause of another version", [0, 900], null],
];

const reader = new ListingReader();
reader.take(Buffer.from(LINES.map((line) => `${line}\n`).join("")));
const listing = reader.end();

for (const [cause, [first, past], wanted] of CASES) {
  test(`${cause} within ${first} to ${past}`, () => {
    const found = placeOfCause(listing, cause, { first, past });
    assert.deepEqual(found && [found.row, found.first, found.past], wanted);
  });
}
