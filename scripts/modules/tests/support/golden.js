// Digests of outputs that were kept, so that another writing cannot change them unseen (scripts/tests/golden.py).

import assert from "node:assert/strict";
import { createHash } from "node:crypto";
import { readFileSync, writeFileSync } from "node:fs";

const FILE = new URL("../golden.json", import.meta.url);

const digestOf = (text) => createHash("sha256").update(text).digest("hex").slice(0, 12);

/** What is kept by a name. @param {string} name @returns {string} */
const kept = (name) => JSON.parse(readFileSync(FILE, "utf8"))[name];

/**
 * Compares texts with the digests of a name; with PORT1_KEEP=1 it keeps theirs.
 * @param {string} name
 * @param {string[]} texts
 */
export function compare(name, texts) {
  const [got, wanted] = [texts.map(digestOf), kept(name).split(" ")];
  if (process.env.PORT1_KEEP === "1") keep(name, got.join(" "));
  const others = got.flatMap((digest, at) => (digest === wanted[at] ? [] : [`${at}:\n${texts[at]}`]));
  assert.equal(got.length, wanted.length);
  assert.deepEqual(others.slice(0, 2), [], `${others.length} of ${got.length} differ`);
}

function keep(name, digests) {
  const all = JSON.parse(readFileSync(FILE, "utf8"));
  writeFileSync(FILE, `${JSON.stringify({ ...all, [name]: digests }, null, 1)}\n`);
}
