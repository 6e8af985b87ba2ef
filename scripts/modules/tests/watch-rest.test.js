// A kill at any line: what the next run judges again makes the same incidents, each once.

import assert from "node:assert/strict";
import { chmodSync, writeFileSync } from "node:fs";
import { join } from "node:path";
import { test } from "node:test";

import { RATE } from "../port1.js";
import { PAIRS } from "../watch/forms.js";
import { Incidents } from "../watch/incidents.js";
import { Journal } from "../watch/journal.js";
import { untold } from "../watch/memory.js";
import { judgedRest } from "../watch/rest.js";
import { Ring } from "../watch/ring.js";
import { Triggers } from "../watch/triggers.js";
import { inFolder } from "./support/folder.js";
import { ENDED, LINES, ROUND, SECONDS, WANTED, rowsOf } from "./support/talk.js";

/** What a run told and wrote down until it was killed after some lines, having written it down each so many. */
function killed(folder, count, each) {
  const journal = new Journal(join(folder, "log"), () => {}, assert.fail);
  const limits = { before: 10, after: 10, longest: 120 };
  let kept = "";
  const keep = () => {
    const known = { triggers: triggers.kept(() => 0), incidents: incidents.kept() };
    kept = JSON.stringify({ run: 1, isOver: false, wall: 0, zero: 0, ...known });
  };
  const [log, save] = [(record) => journal.log(record), (some) => incidents.told(some, "saved")];
  const office = { zero: () => 0, keep, log, save };
  const incidents = new Incidents(1, limits, office);
  const [trigger, wellAgain] = ["trigger", "wellAgain"].map((name) => (...words) => incidents[name](...words));
  const triggers = new Triggers({ trigger, wellAgain }, new Map());
  keep();
  rowsOf(LINES.slice(0, count)).forEach((row, at) => {
    if (at % each === 0) keep();
    triggers.hear([row]);
    const mark = row.first - RATE / 10;
    triggers.tick(mark);
    incidents.tick(mark);
  });
  return { journal, limits, old: JSON.parse(kept) };
}

/** The incidents of a run that was killed after some lines, all of whose bits the ring has. */
async function incidentsOf(folder, count, each) {
  const { journal, limits, old } = killed(folder, count, each);
  const program = join(folder, "port1");
  writeFileSync(join(folder, "listing"), LINES.map((line) => `${line}\n`).join(""));
  writeFileSync(program, `#!/bin/sh\ncat > /dev/null; cat ${join(folder, "listing")}\n`);
  chmodSync(program, 0o755);
  const asked = /** @type {any} */ ({ program, form: PAIRS, dictionary: "", limits, gaps: new Map() });
  const { incidents } = await judgedRest(old, ringIn(folder), asked, journal);
  const told = journal.told().filter(({ event }) => event === "incident");
  const begun = journal.told().filter(({ event }) => event === "begun");
  const ended = journal.told().filter(({ event }) => event === "well again").map(({ place }) => place);
  const all = [...told.map(({ causes, place, id }) => ({ causes, first: place, id })), ...untold(incidents, told)];
  return { ended, all, begun };
}

/** A ring that has the bits of a run from a second on. */
function ringIn(folder, from = 0) {
  const ring = new Ring(join(folder, "ring"), 1, { most: 1 << 30, floor: 0, warn: assert.fail });
  ring.add(new Uint8Array(((SECONDS - from) * RATE) / 4), from * RATE, SECONDS * RATE);
  ring.close();
  return ring;
}

for (const each of [1, 7, 100000]) {
  test(`kills after lines, what is known written down each ${each} lines`, async () => {
    const step = Math.floor(LINES.length / 24);
    for (let count = 1; count < LINES.length; count += step) {
      const { all, begun, ended } = await inFolder((folder) => incidentsOf(folder, count, each));
      const found = all.map(({ causes, first }) => [Object.keys(/** @type {object} */ (causes)).join(), first]);
      assert.deepEqual(found, WANTED, `killed after ${count} lines`);
      assert.deepEqual(ended, ENDED, `killed after ${count} lines`);
      assert.deepEqual(begun.map(({ id }) => id), all.map(({ id }) => id), `killed after ${count} lines`);
    }
  });
}

const known = { usual: ROUND, bad: 0, badFrom: 0, isBad: false, isGone: false, since: null };

/** What a run kept at a second in which all was well, and what it had told; the ring has the bits of a later one on. */
const restOf = ({ at, from, told = [], open = /** @type {any} */ (null) }) =>
  inFolder(async (folder) => {
    const journal = new Journal(join(folder, "log"), () => {}, assert.fail);
    told.forEach((entry) => journal.log(entry));
    const rows = rowsOf(LINES);
    const { kind, line, past } = rows.filter((row) => row.past <= at * RATE).slice(-1)[0];
    const kinds = { "1/1": { ...known, last: past - ROUND }, "2/1": { ...known, last: past - 3000 } };
    const triggers = { kinds, pieces: [], lastHeard: past, isAtRest: false, judged: { kind, line, past } };
    const incidents = { open, waiting: [], long: [], before: [], count: open ? 1 : 0 };
    const old = /** @type {any} */ ({ run: 1, isOver: false, wall: 0, zero: 0, triggers, incidents });
    const limits = { before: 10, after: 10, longest: 120 };
    const lines = async function* () {
      yield* rows.filter((row) => row.first >= from * RATE);
    };
    const asked = /** @type {any} */ ({ lines, form: PAIRS, dictionary: "", limits, gaps: new Map() });
    const found = await judgedRest(old, ringIn(folder, from), asked, journal);
    const begun = journal.told().filter(({ event }) => event === "begun").map(({ id, place }) => [id, place]);
    return { begun, all: untold(found.incidents, []).map(({ id, first, causes }) => [id, first, Object.keys(causes)]) };
  });

const [CAUSE, PLACE] = WANTED[1];

test("no rest and no gap is made of bits that the ring lacks after what was judged", async () => {
  for (const at of [10, 19.9, 20]) {
    assert.deepEqual((await restOf({ at, from: 20 })).all, [["1-1", PLACE, [CAUSE]]], `judged up to ${at} s`);
  }
});

test("an incident has not the number of another one that the log has begun", async () => {
  const other = { event: "begun", wall: "", run: 1, place: 15 * RATE, id: "1-1", cause: "rest" };
  const { all, begun } = await restOf({ at: 20, from: 20, told: [other] });
  assert.deepEqual(all, [["1-2", PLACE, [CAUSE]]]);
  assert.deepEqual(begun, [["1-1", 15 * RATE], ["1-2", PLACE]]);
  const own = { ...other, place: PLACE, cause: CAUSE };
  assert.deepEqual((await restOf({ at: 20, from: 20, told: [own] })).begun, [["1-1", PLACE]]);
});

test("an incident that was begun and then joined by what began earlier is not begun again", async () => {
  const causes = { burst: 1, "gap 1/1": 1 };
  const open = { id: "1-1", run: 1, first: 18 * RATE, past: 20 * RATE, causes, zero: 0, cut: false };
  const told = [{ event: "begun", wall: "", run: 1, place: 18.5 * RATE, id: "1-1", cause: "burst" }];
  assert.deepEqual((await restOf({ at: 20, from: 20, told, open })).begun, [["1-1", 18.5 * RATE]]);
});
