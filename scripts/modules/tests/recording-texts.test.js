// Small recordings of every kind: what is taken of each, as it was kept of an earlier writing that this one was held to.

import { execFileSync } from "node:child_process";
import { test } from "node:test";
import { fileURLToPath } from "node:url";
import { inPieces, taken } from "./recording-helpers.js";
import { compare } from "./support/golden.js";

const WRITER = fileURLToPath(new URL("recording_texts.py", import.meta.url));

const written = JSON.parse(execFileSync("python3", ["-B", WRITER]).toString());

const TEXTS = written.map(([form, text, channels]) => ({ form, channels, octets: Buffer.from(text, "latin1") }));

test("what is taken of each, in pieces of some size", async () => {
  const outcomes = [];
  for (const [number, { octets, ...wanted }] of TEXTS.entries()) {
    const { bits, fault } = await taken(inPieces(octets, 1 + ((number * 7919) % 700)), wanted);
    outcomes.push(`${bits}\n${fault}`);
  }
  compare("recordings", outcomes);
});
