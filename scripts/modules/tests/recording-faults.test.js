import assert from "node:assert/strict";
import { test } from "node:test";
import { recordingOf } from "../recording/recording.js";
import { inPieces, taken } from "./recording-helpers.js";

/** Limits of numbers and of memory, and how pieces are read. */

const DEFINITIONS = "$timescale 1 us $end $var wire 1 ! a $end $var wire 1 # b $end $enddefinitions $end\n#0 0! 0#\n";

const BEYOND = "is beyond the times that are read, which end at 9007199254740991 ticks";

const NINES = "9".repeat(400);

/** @type {[string, import("../recording/forms.js").Form, string, string[], string][]} */
const FAULTS = [
  ["a time of a dump", "vcd", `${DEFINITIONS}#9007199254740992 1!\n`, ["a", "b"], `#9007199254740992 ${BEYOND}`],
  ["a very long time of a dump", "vcd", `${DEFINITIONS}#${NINES}\n`, ["a", "b"], `#${NINES} ${BEYOND}`],
  [
    "a time of a table",
    "csv",
    "Time [s],a,b\n0,0,1\n9007199.254740992,1,1\n",
    ["a", "b"],
    `row 2: "9007199.254740992" ${BEYOND}`,
  ],
  ["one channel", "csv", "a,b\n0,1\n", ["a"], "two, three or four channels are to be named"],
  ["five channels", "csv", "a,b\n0,1\n", Array(5).fill("a"), "two, three or four channels are to be named"],
  ["a long line", "csv", `a,b\n${"0".repeat(9_000_000)}`, ["a", "b"], "a line is longer than 4194304 octets"],
  ["a long word", "vcd", `${DEFINITIONS}${"0".repeat(9_000_000)}`, ["a", "b"], "a word is longer than 4194304 octets"],
];

for (const [name, form, input, channels, fault] of FAULTS) {
  test(`a fault: ${name}`, async () => {
    const got = await taken(inPieces(new TextEncoder().encode(input), 1 << 20), { form, channels });
    assert.deepEqual(got, { bits: "", fault });
  });
}

test("the last time that is read", async () => {
  const input = new TextEncoder().encode(`${DEFINITIONS}#1 1! #4503599627370496 0! #9007199254740991 1!\n`);
  assert.deepEqual(await taken([input], { form: "vcd", channels: ["a", "b"] }), { bits: "00", fault: null });
});

test("a value of many bits is no change of a channel, nor part of its code", async () => {
  const definitions = "$var wire 1 0! a $end $var wire 1 # b $end $var wire 2 ! c $end $enddefinitions $end\n";
  const input = new TextEncoder().encode(`${definitions}#0 00! 1# b00 !\n#1 10! b00 !\n#2 bx0 !\n#3 b0 0!\n#4 b1 0!\n#5`);
  assert.deepEqual(await taken([input], { form: "vcd", channels: ["a", "b"] }), { bits: "11", fault: null });
});

/** A table of one clock, in pieces of an asynchronous source that tells whether it was closed. */
function sourceOf(rows) {
  const source = { isClosed: false, given: 0 };
  source.pieces = (async function* pieces() {
    try {
      for (const piece of inPieces(new TextEncoder().encode(`a,b\n${rows}`), 64)) {
        source.given += 1;
        yield piece;
      }
    } finally {
      source.isClosed = true;
    }
  })();
  return source;
}

const ROWS = "0,1\n1,1\n".repeat(1000);

test("an asynchronous source is read to its end", async () => {
  const source = sourceOf(ROWS);
  const { bits } = await taken(source.pieces, { form: "csv", channels: ["a", "b"] });
  assert.deepEqual([bits, source.isClosed], ["1".repeat(1000), true]);
});

test("a source is closed where there is a fault, and no more of it is read", async () => {
  const source = sourceOf(`0,1\n1\n${ROWS}`);
  const { fault } = await taken(source.pieces, { form: "csv", channels: ["a", "b"] });
  assert.deepEqual([fault, source.isClosed, source.given < 4], ["row 2 has 1 columns", true, true]);
});

test("a source is closed where no more is wanted", async () => {
  const source = sourceOf(ROWS);
  const { pieces } = await recordingOf(source.pieces, { form: "csv", channels: ["a", "b"] });
  await pieces.next();
  await pieces.return(undefined);
  assert.deepEqual([source.isClosed, source.given < 4], [true, true]);
});

test("the fault of a source is told as it is", async () => {
  async function* pieces() {
    yield new TextEncoder().encode("a,b\n0,1\n");
    throw new RangeError("no such file");
  }
  await assert.rejects(taken(pieces(), { form: "csv", channels: ["a", "b"] }), new RangeError("no such file"));
});

test("bits before a fault are given", async () => {
  const rows = Array.from({ length: 200 }, (_, at) => `${at % 2},${at % 3 === 0 ? 1 : 0}\n`).join("");
  const got = await taken([new TextEncoder().encode(`a,b\n${rows}0,x\n1,1\n`)], { form: "csv", channels: ["a", "b"] });
  const bits = Array.from({ length: 100 }, (_, at) => ((2 * at) % 3 === 0 ? 1 : 0)).join("");
  assert.deepEqual(got, { bits, fault: "b has no level at sample 200" });
});
