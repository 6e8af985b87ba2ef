// What a watch has on disk: the ring, the log, and the places of what is packed.

import assert from "node:assert/strict";
import { appendFileSync, readFileSync, readdirSync, statSync, writeFileSync } from "node:fs";
import { join } from "node:path";
import { test } from "node:test";

import { ARRIVALS, PAIRS, TextPacker, octetsBefore } from "../watch/forms.js";
import { Incidents } from "../watch/incidents.js";
import { Journal } from "../watch/journal.js";
import { untold } from "../watch/memory.js";
import { Ring, SEGMENT } from "../watch/ring.js";
import { Triggers } from "../watch/triggers.js";
import { inFolder } from "./support/folder.js";
import { randomOf } from "./support/random.js";
import { rowsOf } from "./support/talk.js";

/** @type {[typeof PAIRS, string, string][]} */
const FORMS = [[PAIRS, "0123", "0123"], [ARRIVALS, "01oi", "01"]];

for (const [form, marks, counted] of FORMS) {
  test(`octets and places of ${form.options}, in pieces of any size`, () => {
    const random = randomOf(3);
    const text = Array.from({ length: 4000 }, () => random.one([...marks, "\n"])).join("");
    const packer = new TextPacker(form);
    /** @type {number[][]} */
    const parts = [];
    for (let at = 0; at < text.length; ) {
      const past = at + random.below(50);
      const before = [...text.slice(0, at)].filter((c) => marks.includes(c)).slice(0, 4 * parts.flat().length);
      assert.equal(packer.begin, before.filter((c) => counted.includes(c)).length);
      parts.push([...packer.take(Buffer.from(text.slice(at, past)))]);
      at = past;
    }
    const whole = [...text].filter((c) => marks.includes(c));
    assert.equal(packer.places, whole.filter((c) => counted.includes(c)).length);
    const octets = Uint8Array.from(parts.flat());
    octets.forEach((octet, at) => {
      const own = whole.slice(4 * at, 4 * at + 4).map((c) => marks.indexOf(c));
      assert.equal(octet, own[0] + 4 * own[1] + 16 * own[2] + 64 * own[3]);
    });
    const { at, passed } = octetsBefore(form, octets, 500);
    assert.equal(passed, whole.slice(0, 4 * at).filter((c) => counted.includes(c)).length);
    assert.ok(passed <= 500 && passed > 496 - 4);
  });
}

test("the ring keeps the last octets, never more than it may, and another run finds them", () =>
  inFolder(async (folder) => {
    const random = randomOf(4);
    const limits = { most: 6 * SEGMENT, floor: 0, warn: assert.fail };
    const ring = new Ring(folder, 7, limits);
    const made = Buffer.from(Array.from({ length: 1 << 18 }, () => random.below(256)));
    for (let count = 0; count < 100; count++) {
      ring.add(made, 4 * made.length * count, 4 * made.length * (count + 1));
      await ring.packing;
      const size = readdirSync(folder).reduce((sum, name) => sum + statSync(join(folder, name)).size, 0);
      assert.ok(size <= 6 * SEGMENT + (1 << 16), `${size}`);
    }
    const past = 4 * made.length * 100;
    const found = new Ring(folder, 8, limits).read(PAIRS, 7, past - 6 * made.length, past - made.length);
    const [{ octets, place }] = found;
    assert.equal(found.length, 1);
    assert.equal(place, past - 6 * made.length);
    assert.deepEqual(octets, Buffer.concat([made, made]).subarray(made.length / 2, 7 * made.length / 4));
    assert.deepEqual(ring.read(PAIRS, 6, 0, past), []);
  }));

test("a line that a disk took half of is written again, and one that a kill cut off is dropped", () =>
  inFolder((folder) => {
    const path = join(folder, "log");
    writeFileSync(path, '{"event":"start"}\n{"event":"inci');
    const journal = new Journal(path, () => {}, () => {});
    journal.log(/** @type {any} */ ({ event: "incident", id: "1-1" }));
    appendFileSync(path, '{"event":');
    const told = [{ event: "start" }, { event: "incident", id: "1-1" }];
    assert.deepEqual(new Journal(path, () => {}, () => {}).told(), told);
    assert.equal(readFileSync(path, "utf8"), '{"event":"start"}\n{"event":"incident","id":"1-1"}\n');
  }));

test("a line that is cut within a character, or of which the end of a long log has a part, is no event", () =>
  inFolder((folder) => {
    const path = join(folder, "log");
    const long = `{"event":"incident","id":"1-1","causes":{"a":"${"x".repeat(1 << 18)}"}}\n`;
    const line = `${long}{"event":"incident","id":"1-2"}\n`;
    for (const cut of [1, 2, 3]) {
      writeFileSync(path, Buffer.concat([Buffer.from(line), Buffer.from("{\"€").subarray(0, 2 + cut)]));
      const journal = new Journal(path, () => {}, () => {});
      assert.equal(readFileSync(path, "utf8"), line);
      assert.deepEqual(journal.told(), [{ event: "incident", id: "1-2" }]);
    }
  }));

test("what the log has is told, what was open is cut, the rest is to be told", () => {
  const incidents = { open: { id: "1-3" }, waiting: [{ id: "1-1" }, { id: "1-2" }] };
  const kept = /** @type {any} */ ({ run: 1, wall: 0, kinds: {}, ...incidents });
  assert.deepEqual(untold(kept, [{ id: "1-1" }]), [{ id: "1-2" }, { id: "1-3", cut: true }]);
});

test("an incident goes on in the next run where that run was cut off in it, and in no other", () => {
  const office = { zero: () => 0, keep() {}, save() {}, log() {} };
  const incidents = new Incidents(2, { after: 5, longest: 600 }, office);
  const before = [{ id: "1-1", causes: { burst: 1 }, cut: false }, { id: "1-2", causes: { rest: 1 }, cut: true }];
  incidents.takeOver(/** @type {any} */ (before));
  for (const [cause, wanted] of [["burst", undefined], ["rest", "1-2"]]) {
    incidents.trigger(/** @type {string} */ (cause), 10, 20);
    incidents.take(20);
    assert.equal(incidents.open?.continues, wanted);
    incidents.close();
  }
});

test("an incident within which the watch ends is cut, and may go on in the next run", () => {
  const office = { zero: () => 0, keep() {}, save() {}, log() {} };
  const incidents = new Incidents(1, { after: 5, longest: 600 }, office);
  incidents.trigger("burst", 10, 20);
  incidents.finish(30);
  incidents.cutOff();
  incidents.close();
  incidents.settle(Infinity);
  const { waiting, before } = incidents.kept();
  assert.deepEqual(waiting.map(({ id, cut }) => [id, cut]), [["1-1", true]]);
  const next = new Incidents(2, { after: 5, longest: 600 }, office);
  next.takeOver([], before);
  next.trigger("burst", 10, 20);
  next.take(20);
  assert.equal(next.open?.continues, "1-1");
});

test("that bits are missing beside an incident is still known in the next run", () => {
  const office = { zero: () => 0, keep() {}, save() {}, log() {} };
  const incidents = new Incidents(1, { after: 1, longest: 600 }, { ...office, settled: () => 0 });
  const second = 153600;
  for (const at of [1, 5, 9]) incidents.trigger(`burst ${at}`, at * second, at * second + 1);
  incidents.seam(5.5 * second);
  incidents.tick(10.5 * second);
  const { open, waiting } = JSON.parse(JSON.stringify(incidents.kept(() => 7, [8.5 * second])));
  const next = new Incidents(2, { after: 1, longest: 600 }, office);
  next.takeOver([...waiting, open]);
  const told = next.waiting.map((one) => [next.recordOf(one).seam, one.zero]);
  assert.deepEqual(told, [[undefined, 7], [true, 7], [true, 7]]);
});

/** How often missing answers are told where a run had some of them and the next one the others. */
function toldOfRow(before, after, isNear, isAnswered = false) {
  /** @type {string[]} */
  const told = [];
  const ears = { trigger: (cause) => told.push(cause), wellAgain() {} };
  const [first, second] = [1, 2].map(() => new Triggers(ears, new Map()));
  const line = (kind, at) => `1 ${100 * at} ${100 * at + 9} ${kind} station 2 type 1`;
  const rows = (kind, count) => rowsOf(Array.from({ length: count }, (_, at) => line(kind, at)));
  first.hear(rows("missing", before));
  if (isAnswered) first.hear(rows("answered", 1));
  second.restore(first.kept(() => 7).kinds, isNear);
  second.hear(rows("missing", after));
  return told;
}

test("a row of missing answers goes on in the next run, if that begins soon", () => {
  assert.deepEqual(toldOfRow(3, 4, true), ["missing 2/1"]);
  assert.deepEqual(toldOfRow(3, 1, true), []);
  assert.deepEqual(toldOfRow(3, 4, false), []);
  assert.deepEqual(toldOfRow(3, 4, true, true), []);
  assert.deepEqual(toldOfRow(6, 4, true), ["missing 2/1"]);
});
