import assert from "node:assert/strict";
import { test } from "node:test";
import { Fault } from "../fault.js";
import { ListingReader, isListing } from "../listing/read.js";

/** So many octets of a frame to station 16 of type 1, its check among them: a dictionary can have 258. */
const octetsOf = (count) => Buffer.from(Uint8Array.from({ length: count }, (_, at) => [16, 0x83, 1][at] ?? at & 255));

/** A line of each form, and what a row has of it. */
const LINES = [
  ...[256, 257, 258].map((count) => ({
    text: `8 ${8 + 8 * count} frame ${octetsOf(count).toString("hex")} station 16 type 1 long`,
    row: { past: 8 + 8 * count, octets: new Uint8Array(octetsOf(count)), type: 1, name: "long" },
  })),
  { text: "8 49 frame 108300fde5", row: { kind: "frame", station: 16, type: 0, name: "" } },
  { text: "8 49 frame 108300fde5 station 16 type 0 call", row: { type: 0, name: "call" } },
  { text: "8 49 frame 108345fde5 station 16 type 69 unknown", row: { type: 69, name: "unknown" } },
  { text: "8 49 frame 108301fde5 station 16 type 1 length", row: { type: 1, name: "length" } },
  { text: "0 32 frame 1013ccb8 control 19", row: { station: 16, type: null, name: "" } },
  { text: "0 32 frame 1083452c untyped", row: { station: 16, type: null, name: "" } },
  { text: "1 8 49 frame 108300fde5", row: { line: 1 } },
  { text: "0 31 damaged unstuffed", row: { kind: "damaged", cause: "unstuffed", station: null } },
  { text: "0 31 damaged short", row: { cause: "short" } },
  { text: "0 31 damaged unaligned", row: { cause: "unaligned" } },
  { text: "2 0 31 damaged fcs", row: { line: 2, cause: "fcs", type: null } },
  { text: "5 20 idle", row: { line: null, first: 5, past: 20, kind: "idle" } },
  { text: "5 20 overlong", row: { kind: "overlong" } },
  { text: "5 20 abort", row: { kind: "abort" } },
  { text: "5 20 open", row: { kind: "open" } },
  { text: "8 49 stray station 16 type 128", row: { kind: "stray", station: 16, type: 128 } },
  { text: "8 49 answered station 16 type 0", row: { kind: "answered", octets: null } },
  { text: "8 49 late station 16 type 0", row: { kind: "late" } },
  { text: "8 49 missing station 16 type 0", row: { kind: "missing" } },
  { text: "8 49 spoilt station 255 type 127", row: { kind: "spoilt", station: 255 } },
  { text: "1 8 49 pending station 16 type 0", row: { kind: "pending", line: 1 } },
  { text: "9007199254740990 9007199254740991 idle", row: { first: 2 ** 53 - 2, past: 2 ** 53 - 1 } },
];

const WRONG = [
  "",
  "8 49",
  "8 49 frame",
  "8 49 frame 1083f",
  "8 49 frame 108300FDE5",
  "08 49 idle",
  "3 8 49 idle",
  "8 49 damaged",
  "8 49 answered",
  "8 49 frame 108300fde5 station 17 type 0 call",
  "8 49 frame 108300fde5 untyped call",
  "8 49 frame 10 control 131",
  "8 49 answered station 256 type 0",
  "8 9007199254740993 idle",
  "8 49 idle ",
  "<b>8 49 idle</b>",
];

function readAll(text, cut) {
  const octets = new TextEncoder().encode(text);
  const reader = new ListingReader();
  for (let at = 0; at < octets.length; at += cut) reader.take(octets.subarray(at, at + cut));
  return reader.end();
}

for (const { text, row } of LINES) {
  test(`a line is read and written: ${text}`, () => {
    const listing = readAll(`${text}\n`, 1000);
    assert.equal(listing.length, 1);
    assert.equal(listing.text(0), text);
    const found = listing.row(0);
    for (const [name, value] of Object.entries(row)) assert.deepEqual(found[name], value, name);
    assert.ok(isListing(new TextEncoder().encode(`${text}\n0 15`)));
  });
}

for (const text of WRONG) {
  test(`a line is refused: ${text}`, () => {
    assert.throws(() => readAll(`0 32 frame 1083452c untyped\n${text}\n`, 1000), {
      constructor: Fault,
      message: `line 2 is no line of \`port1 list\`: ${JSON.stringify(text)}`,
    });
  });
}

test("a listing that is cut anywhere is the same", () => {
  const text = LINES.map((line) => `${line.text}\n`).join("");
  for (let cut = 1; cut < 60; cut++) assert.equal(readAll(text, cut).textOf(0, LINES.length), text);
});

test("a long listing keeps each line", () => {
  const texts = Array.from({ length: 5000 }, (_, at) => LINES[at % LINES.length].text);
  const listing = readAll(texts.map((text) => `${text}\n`).join(""), 4096);
  assert.deepEqual(Array.from({ length: listing.length }, (_, at) => listing.text(at)), texts);
});

test("a reply is timed where its answer is the line before", () => {
  const listing = readAll("0 40 frame 1083000000\n90 131 frame 1083800000\n0 40 answered station 16 type 0\n", 1000);
  assert.equal(listing.row(2).replyBits, 50);
  assert.equal(listing.row(1).replyBits, null);
  const frames = ["1183800000", "1083810000", "1083000000", "1013800000"].map((octets) => `frame ${octets}`);
  for (const text of [...frames, "stray station 16 type 128"]) {
    const other = readAll(`90 131 ${text}\n0 40 answered station 16 type 0\n`, 1000);
    assert.equal(other.row(1).replyBits, null, text);
  }
});
