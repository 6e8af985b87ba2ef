// Incidents among files: those of a folder belong together.

import assert from "node:assert/strict";
import { test } from "node:test";
import { aboutOf, titleOf } from "../../scripts/modules/watch/words.js";
import { incidentsAmong, shownOf } from "../src/view/incidents.js";

const TOLD = { wall: "2026-11-27T03:00:10.000Z", place: 1536000, seconds: 2.5, causes: { "missing 2/1": 1 } };
const KNOWN = { ...TOLD, begin: "2026-11-27T03:00:00.000Z", origin: 307200 };

/** A file in a folder. */
const given = (path, text = "") => ({ path, file: new File([text], path.split("/").pop()) });

const folder = (path, wall) => [
  given(`${path}/incident.json`, JSON.stringify({ ...KNOWN, wall })),
  ...["bits.ts2", "listing.txt", "summary.txt"].map((name) => given(`${path}/${name}`)),
];

test("each folder is an incident with its own files, the last one first", async () => {
  const one = folder("night/incidents/one", "2026-11-27T03:00:10.000Z");
  const other = folder("night/incidents/other", "2026-11-28T03:00:10.000Z");
  const all = [...one, ...other, given("night/ring/000001-000000"), given("night/incidents.jsonl")];
  const { incidents, broken } = await incidentsAmong(all);
  assert.deepEqual(incidents.map(({ path }) => path), ["night/incidents/other/", "night/incidents/one/"]);
  assert.deepEqual([...incidents[1].files.values()], one.map(({ file }) => file));
  assert.deepEqual(broken, []);
});

test("files without a record are none, and one that tells nothing is named", async () => {
  assert.deepEqual(await incidentsAmong([given("bits.ts2")]), { incidents: [], broken: [] });
  for (const text of ["", "{}", "[]", "null", JSON.stringify({ ...KNOWN, begin: "yesterday" })]) {
    const { incidents, broken } = await incidentsAmong([given("a/incident.json", text)]);
    assert.deepEqual([incidents.length, broken], [0, ["a/incident.json"]]);
  }
});

test("bits are shown from their first place, or else the listing, whose places are those of the run", async () => {
  const [{ incidents: [whole] }, { incidents: [bare] }] = await Promise.all([
    incidentsAmong(folder("a", TOLD.wall)),
    incidentsAmong(folder("a", TOLD.wall).slice(0, 1)),
  ]);
  const bits = shownOf(whole, true);
  assert.deepEqual([bits?.file.name, bits?.first, bits?.begin], ["bits.ts2", 307200, { text: KNOWN.begin, late: 2 }]);
  const listed = shownOf(whole, false);
  assert.deepEqual([listed?.file.name, listed?.first, listed?.begin.late], ["listing.txt", 0, 0]);
  assert.equal(shownOf(bare, true), null);
});

test("the cause that began it, or the rest that explains it, stands for all, with the stations of all", () => {
  const causes = { "gap 16/0": 1, "burst": 2, "gap 2/1": 1, rest: 1, "gap 2/3": 1 };
  const told = (some) => Object.values(aboutOf(some));
  assert.deepEqual(told(causes), ["rest", "nothing on either line, and 4 other causes", "", [2, 16]]);
  const mixed = { "missing 2/10": 3, rest: 1 };
  assert.deepEqual(told(mixed), ["missing 2/10", "answers to type 10 missing, and 1 other cause", "2", [2]]);
  assert.deepEqual(told({ "spoilt 3/7": 1 }), ["spoilt 3/7", "answers to type 7 spoilt", "3", [3]]);
  assert.equal(titleOf(KNOWN), "2026-11-27 03:00:10 UTC: station 2, answers to type 1 missing");
});
