// Where the disk took no bits there is a hole, which is told, and what is saved stands at its places.

import assert from "node:assert/strict";
import { chmodSync, readFileSync, readdirSync, statSync, writeFileSync } from "node:fs";
import { join } from "node:path";
import { test } from "node:test";

import { RATE } from "../port1.js";
import { PAIRS } from "../watch/forms.js";
import { Ring, SEGMENT } from "../watch/ring.js";
import { Saver } from "../watch/saver.js";
import { inFolder } from "./support/folder.js";

const SECOND = RATE / 4; // octets

const DICTIONARY = 'version = 1\n[[frame]]\ntype = 1\nname = "poll"\nlength = 0';

/** The octets of some seconds, each of which has its own. */
const octetsOf = (from, past) =>
  Buffer.concat(Array.from({ length: past - from }, (_, at) => Buffer.from(new Uint8Array(SECOND).fill(from + at))));

/** A ring of 180 seconds, of which the disk took none from 60 to 100 and from 130 to 134. */
function ringIn(folder, told = []) {
  const limits = { most: 1 << 30, floor: 0, warn() {}, missed: (hole) => told.push(hole) };
  const ring = new Ring(join(folder, "ring"), 1, limits);
  ring.prune = () => undefined; // what is old stays, also on a full disk
  const add = (from, past) => ring.add(octetsOf(from, past), from * RATE, past * RATE);
  add(0, 60);
  ring.floor = Infinity;
  for (let at = 60; at < 100; at += 4) add(at, at + 4);
  ring.floor = 0;
  add(100, 130);
  ring.close();
  ring.floor = Infinity;
  add(130, 134);
  ring.floor = 0;
  add(134, 180);
  ring.close();
  return ring;
}

test("a ring with holes gives pieces that stand at their places, and tells the holes", () =>
  inFolder((folder) => {
    assert.ok(60 * SECOND > SEGMENT);
    const told = [];
    const ring = ringIn(folder, told);
    const holes = [[60, 100], [130, 134]].map(([first, past]) => ({ first: first * RATE, past: past * RATE }));
    assert.deepEqual(told, holes);
    for (const [first, past] of [[0, 180], [50, 62], [58, 132], [70, 90], [131, 150], [95, 101]]) {
      const pieces = ring.read(PAIRS, 1, first * RATE, past * RATE);
      const wanted = [[0, 60], [100, 130], [134, 180]]
        .map(([one, other]) => [Math.max(first, one), Math.min(past, other)]).filter(([one, other]) => one < other);
      assert.deepEqual(pieces.map(({ place, past }) => [place / RATE, past / RATE]), wanted, `${first} to ${past}`);
      wanted.forEach(([one, other], at) => assert.deepEqual(pieces[at].octets, octetsOf(one, other)));
    }
  }));

/** The octets of a capture that a folder has. */
const bitsOf = (folder, name) => readFileSync(join(folder, name)).subarray(16);

/** A saver whose program lists nothing. */
function saverIn(folder, ring, keep = 1 << 30) {
  const program = join(folder, "port1");
  writeFileSync(program, "#!/bin/sh\nexec cat > /dev/null\n");
  chmodSync(program, 0o755);
  const limits = { before: 10, after: 10, longest: 120, keep, floor: 0 };
  return new Saver(join(folder, "incidents"), ring, { program, form: PAIRS, dictionary: () => DICTIONARY, limits });
}

const hole = (from, past) => ({ wall: new Date(1000 * from).toISOString(), place: from * RATE, seconds: past - from });

/** Incidents at seconds: what is listed, what stands beside, and what is missing. */
const CASES = [
  { at: [105, 106], main: [100, 116], beside: [], holes: [hole(95, 100)] },
  { at: [62, 63], main: [52, 60], beside: [], holes: [hole(60, 73)] },
  { at: [126, 128], main: [116, 130], beside: [[134, 138]], holes: [hole(130, 134)] },
  { at: [136, 137], main: [134, 147], beside: [[126, 130]], holes: [hole(130, 134)] },
  { at: [20, 21], main: [10, 31], beside: [], holes: [] },
  { at: [75, 77], main: null, beside: [], holes: [hole(65, 87)] },
  { at: [175, 176], main: [165, 180], beside: [], holes: [] },
];

for (const { at, main, beside, holes } of CASES) {
  test(`an incident at ${at[0]} s has the bits of its places, and says which are missing`, () =>
    inFolder(async (folder) => {
      const saver = saverIn(folder, ringIn(folder));
      const [first, past] = at.map((second) => second * RATE);
      const incident = { id: "1-1", run: 1, first, past, causes: { burst: 1 }, zero: 0, cut: false };
      const found = await saver.save(incident, /** @type {any} */ ({ wall: "", causes: { burst: 1 } }));
      assert.deepEqual(found.holes, holes);
      assert.equal(found.saved === null, main === null);
      if (main === null) return;
      const own = join(folder, "incidents", found.saved ?? "");
      const record = JSON.parse(readFileSync(join(own, "incident.json"), "utf8"));
      assert.deepEqual([record.origin, record.holes ?? []], [main[0] * RATE, holes]);
      assert.deepEqual(bitsOf(own, "bits.ts2"), octetsOf(main[0], main[1]));
      const names = readdirSync(own).filter((name) => name.startsWith("bits-"));
      assert.deepEqual(names, beside.map(([from]) => `bits-${from * RATE}.ts2`));
      beside.forEach(([from, to], number) => assert.deepEqual(bitsOf(own, names[number]), octetsOf(from, to)));
      const summary = readFileSync(join(own, "summary.txt"), "utf8");
      assert.equal(summary.split("Bits are missing").length - 1, holes.length);
    }));
}

/** The octets of a folder. */
const sizeOf = (folder) => readdirSync(folder).reduce((sum, name) => sum + statSync(join(folder, name)).size, 0);

/** The folders that are left after incidents of some causes, each a second long, and the octets of the last. */
const leftBy = (keep, causes) =>
  inFolder(async (folder) => {
    const saver = saverIn(folder, ringIn(folder), keep);
    for (const [number, cause] of causes.entries()) {
      const first = (20 + number) * RATE;
      const places = { run: 1, first, past: first + RATE, zero: 0 };
      const incident = { ...places, id: `1-${number}`, causes: { [cause]: 1 }, cut: false };
      assert.ok((await saver.save(incident, /** @type {any} */ ({ wall: "", causes: {} }))).saved);
    }
    const names = readdirSync(join(folder, "incidents")).sort();
    const left = names.map((name) => name.slice(15, 17) + name.slice(name.indexOf("Z-") + 1));
    return { left, size: sizeOf(join(folder, "incidents", names[names.length - 1])) };
  });

test("old folders go before the first ones of their causes, and the last one stays however great it is", async () => {
  const causes = ["burst", "rest", "burst", "burst"];
  const { left, size } = await leftBy(Infinity, causes);
  assert.deepEqual(left, ["20-burst", "21-rest", "22-burst", "23-burst"]);
  assert.deepEqual((await leftBy(1, causes)).left, ["23-burst"]);
  assert.deepEqual((await leftBy(2.5 * size, causes)).left, ["22-burst", "23-burst"]);
  assert.deepEqual((await leftBy(3.5 * size, causes)).left, ["20-burst", "21-rest", "23-burst"]);
});
