// Reading a file: one that is cut off within a line is read up to there, and one that changes is refused; and captures,
// wherever one read ends and the next begins.

import assert from "node:assert/strict";
import { test } from "node:test";
import { Fault } from "../../scripts/modules/fault.js";
import { FORMS } from "../../scripts/modules/capture/forms.js";
import { PackedReader } from "../../scripts/modules/capture/packed.js";
import { TextReader } from "../../scripts/modules/capture/text.js";
import { piecesOf } from "../src/worker/pieces.js";
import { read } from "../src/worker/source.js";

const LINES = Array.from({ length: 50 }, (_, at) => `${100 * at} ${100 * at + 15} idle\n`);

/** @param {Blob} file @returns {import("../src/worker/source.js").Job} */
const jobOf = (file) => ({ file, form: "listing", entries: null, engine: null });
const readText = (text) => read(jobOf(new Blob([text])), () => undefined);
const textOf = ({ listing }) => listing.textOf(0, listing.length);

test("a whole listing has no warning, with a line end at its end or without", async () => {
  for (const text of [LINES.join(""), LINES.join("").slice(0, -1)]) {
    const found = await readText(text);
    assert.deepEqual([textOf(found), found.fault, found.warnings], [LINES.join(""), null, []]);
  }
});

test("a listing of more than one read of 4 MiB, whole and cut off within a line", async () => {
  const lines = Array.from({ length: 220_000 }, (_, at) => `${100 * at} ${100 * at + 15} idle\n`);
  const text = lines.join("");
  assert.ok(text.length > 2 ** 22);
  for (const [file, sorts] of [[text, []], [`${text}22000000 220000`, ["cut"]]]) {
    const { listing, fault, warnings } = await readText(file);
    assert.deepEqual([fault, warnings.map(({ sort }) => sort)], [null, sorts]);
    assert.deepEqual([listing.length, listing.textOf(0, listing.length) === text], [lines.length, true]);
  }
});

for (const cut of [1, 5, 9]) {
  test(`a listing that is cut off ${cut} octets into a line`, async () => {
    const found = await readText(LINES.join("") + LINES[49].slice(0, cut));
    assert.equal(textOf(found), LINES.join(""));
    assert.deepEqual(found.warnings.map(({ sort }) => sort), ["cut"]);
  });
}

test("a wrong line that is not the last is a fault", async () => {
  const wanted = { constructor: Fault, message: 'line 51 is no line of `port1 list`: "what"' };
  await assert.rejects(readText(`${LINES.join("")}what\n${LINES.join("")}cut of`), wanted);
});

/** A file that cannot be read any more after so many octets, as browsers have it where it was written meanwhile. */
function growing(name, octets) {
  const refused = Object.assign(new Error("changed"), { name });
  const part = (from) => ({ arrayBuffer: () => (from < octets ? Promise.resolve(new ArrayBuffer(4)) : Promise.reject(refused)) });
  return /** @type {any} */ ({ size: 1 << 23, slice: part });
}

for (const [name, wanted] of [
  ["NotReadableError", { constructor: Fault, message: "the file changed while it was read" }],
  ["NotFoundError", { constructor: Fault, message: "the file changed while it was read" }],
  ["AbortError", { name: "AbortError" }],
]) {
  test(`a file that the browser refuses by a ${name}`, async () => {
    const all = async () => {
      for await (const piece of piecesOf(growing(name, 1 << 22), () => undefined)) assert.equal(piece.length, 4);
    };
    await assert.rejects(all, wanted);
  });
}

const FIRST = "01111110000010001100000100000000101111101101001110111111";
const SECOND = "10110111011101111";

/** A packed capture: its magic, how many marks it has, and these, of each octet the first one lowest. */
function packed(magic, marks, bits) {
  const octets = bits.match(/.{1,8}/g).map((eight) => Number.parseInt([...eight].reverse().join(""), 2));
  return Uint8Array.from([...Buffer.from(magic), marks, 0, 0, 0, 0, 0, 0, 0, ...octets]);
}

const PAIRS = [...SECOND].map((bit, at) => FIRST[at] + bit).join("");
const MARKS = [...SECOND].map((bit, at) => Number(FIRST[at]) + 2 * Number(bit)).join("");

/** @type {[string, 1|2, Uint8Array, string[], string|null][]} */
const CAPTURES = [
  ["a text", 1, Buffer.from(`${FIRST}\n`), [FIRST], null],
  ["a text of two lines, with spaces", 2, Buffer.from([...MARKS].join(" \r\n")), [FIRST.slice(0, 17), SECOND], null],
  ["a text with an x", 1, Buffer.from(`${FIRST.slice(0, 20)} ${FIRST.slice(20)}x`), [FIRST], "octet 57 is no bit"],
  ["a packed one", 1, packed("TS2BITS1", 56, FIRST), [FIRST], null],
  ["a packed one of two lines", 2, packed("TS2BITS2", 17, PAIRS), [FIRST.slice(0, 17), SECOND], null],
  ["one with an octet more", 1, packed("TS2BITS1", 48, FIRST), [FIRST.slice(0, 48)], "octets after the end"],
  ["one cut off", 1, packed("TS2BITS1", 60, FIRST), [FIRST], "short body"],
  ["one cut off within its head", 1, packed("TS2BITS1", 60, FIRST).subarray(0, 15), [""], "short head"],
];

for (const [name, kind, octets, lines, fault] of CAPTURES) {
  test(`captures in pieces of any size: ${name}`, () => {
    for (let size = 1; size <= octets.length; size++) {
      const bits = lines.map(() => "");
      const { width } = FORMS[kind];
      const give = (octets, marks) => {
        for (const octet of octets) {
          for (let at = 0; at < width * marks; at++) bits[at % width] += (octet >> at) & 1;
        }
      };
      const reader = new (name.startsWith("a text") ? TextReader : PackedReader)(FORMS[kind], give);
      const readAll = () => {
        for (let at = 0; at < octets.length; at += size) reader.take(octets.subarray(at, at + size));
        reader.end();
      };
      if (fault === null) readAll();
      else assert.throws(readAll, { constructor: Fault, message: fault });
      assert.deepEqual(bits, lines, `in pieces of ${size}`);
    }
  });
}
