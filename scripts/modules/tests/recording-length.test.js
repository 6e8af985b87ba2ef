import assert from "node:assert/strict";
import { test } from "node:test";
import { recordingOf } from "../recording/recording.js";

/** A long recording takes no more memory than a short one. */

const PIECES = process.env.PORT1_ALL ? 250 : 40;

const MEGABYTE = 1 << 20;

/** Bits of a clock of eight samples a bit, the data low and high in turn: a table of a megabyte. */
const BLOCK = new TextEncoder().encode(["0,0\n", "1,0\n", "0,1\n", "1,1\n"].map((row) => row.repeat(4)).join(""));

const PIECE = Uint8Array.from({ length: MEGABYTE }, (_, at) => BLOCK[at % BLOCK.length]);

const EDGES = (2 * MEGABYTE) / BLOCK.length;

function memory() {
  const { arrayBuffers, heapUsed } = process.memoryUsage();
  return arrayBuffers + heapUsed;
}

test("a long recording", async () => {
  let most = 0;
  function* pieces() {
    yield new TextEncoder().encode("a,b\n");
    for (let at = 0; at < PIECES; at++) {
      most = Math.max(most, memory());
      yield PIECE;
    }
  }
  const recording = await recordingOf(pieces(), { form: "csv", channels: ["a", "b"] });
  let runs = 0;
  for await (const some of recording.pieces) runs += some.length / 8;
  // Beside the changes, a run ends with each piece.
  const changes = PIECES * 2 * EDGES;
  assert.ok(runs >= changes && runs <= changes + 2 * PIECES + 2, `${runs} runs`);
  assert.ok(most < 200 * MEGABYTE, `${most} octets`);
});
