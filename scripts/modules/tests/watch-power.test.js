// Power fails after any step of writing, and within any: each incident is told once, and no number comes twice.

import assert from "node:assert/strict";
import { existsSync, readFileSync, readdirSync, writeFileSync } from "node:fs";
import { join } from "node:path";
import { test } from "node:test";

import { RATE } from "../port1.js";
import { PAIRS } from "../watch/forms.js";
import { Journal } from "../watch/journal.js";
import { read } from "../watch/memory.js";
import { CLOCKS, RecordedWall } from "../watch/wall.js";
import { Watch } from "../watch/watch.js";
import { Left, Quick, Slow, TakenDown, lay } from "./support/cut_disk.js";
import { inFolder } from "./support/folder.js";
import { randomOf } from "./support/random.js";
import { LINES, SECONDS, WANTED, rowsOf } from "./support/talk.js";

const ROWS = rowsOf(LINES);

/** What a decoder takes to decide a line, in places; how often what is known is written down, in seconds. */
const [DECIDED, KEEP] = [4000, 5];

/** A decoder that knows what comes. */
class Known {
  hasEnded = false;
  said = "";
  at = 0;
  mark = 0;

  constructor(hear) {
    this.hear = hear;
  }

  async feed(_, place) {
    this.mark = place - DECIDED;
    const from = this.at;
    while (this.at < ROWS.length && ROWS[this.at].past <= this.mark) this.at += 1;
    this.hear(ROWS.slice(from, this.at));
  }

  async end() {}
}

/** What lists the bits that a ring has. */
async function* lines(_, words, capture) {
  const place = Number(words[words.indexOf("--origin") + 1]);
  const past = place + 4 * (capture.length - 16);
  yield* ROWS.filter((row) => row.first >= place && row.past + DECIDED <= past);
}

class Tried extends Watch {
  constructor(folder, disk, warn = assert.fail) {
    super(/** @type {any} */ ({
      ...{ folder, disk, program: "", form: PAIRS, dictionary: "", gaps: new Map() },
      ...{ wall: new RecordedWall(1.8e9), lines },
      limits: { before: 10, after: 5, longest: 120, ring: 1 << 30, keep: 1 << 30, floor: 0 },
      ...{ write() {}, warn },
    }));
    this.keepBits = KEEP * RATE;
    this.ring.segment = 1 << 18;
    this.saver.fill = async (fresh) => writeFileSync(join(fresh, "bits.ts2"), "");
  }

  async decode() {
    this.decoder = /** @type {any} */ (new Known((rows) => this.triggers.hear(rows)));
  }
}

/** The steps of a run over the whole talk. */
const stepsOfRun = () => inFolder(async (folder) => {
  const disk = new TakenDown(folder);
  const watch = new Tried(folder, disk);
  await watch.begin();
  for (let second = 0; second < SECONDS; second++) {
    await watch.take(Buffer.from("0".repeat(RATE)));
    await watch.ring.packing;
    await watch.saving;
    await disk.idle;
  }
  await watch.end();
  return disk.steps;
});

/** The same on a disk that flushes so many things in each second of the talk, and the others in the end. */
const stepsOfSlowRun = (flushes) => inFolder(async (folder) => {
  const disk = new Slow(folder);
  const watch = new Tried(folder, disk);
  await watch.begin();
  for (let second = 0; second < SECONDS; second++) {
    await watch.take(Buffer.from("0".repeat(RATE)));
    for (let count = 0; count < flushes; count++) await disk.let();
  }
  assert.ok(disk.waiting.length > 0);
  disk.letAll();
  await watch.end();
  return disk.steps;
});

const entriesOf = (text) => text.split("\n").slice(0, -1).map((line) => JSON.parse(line));

const logOf = (files) => entriesOf(files.get("incidents.jsonl")?.toString() ?? "");

/** The events of a log, by their kinds. */
const those = (log, kind) => log.filter(({ event }) => event === kind);

/** The number of the run that a segment is of. */
const runOf = (name) => Number(name.slice(5, 11));

/** What is wrong after a power cut that left some files: what the next run tells, and how it goes on. */
const problemsAfter = (files, bits) => inFolder(async (folder) => {
  lay(files, folder);
  const known = logOf(files);
  const watch = new Tried(folder, new Quick());
  await watch.begin();
  await watch.end();
  const log = entriesOf(readFileSync(join(folder, "incidents.jsonl"), "utf8"));
  const told = those(log, "incident");
  const found = told.map(({ causes, place }) => JSON.stringify([Object.keys(causes).join(), place]));
  const all = WANTED.map((one) => JSON.stringify(one));
  const due = all.filter((_, at) => /** @type {number} */ (WANTED[at][1]) + 3 * RATE < bits);
  const begun = (id) => those(log, "begun").filter((one) => one.id === id);
  const isSaved = ({ saved }) => saved !== null && existsSync(join(folder, "incidents", saved));
  const segments = [...files.keys()].filter((name) => name.startsWith("ring/"));
  const runs = [...known.map(({ run }) => run), ...segments.map(runOf)];
  return [
    ...found.filter((one) => !all.includes(one)).map((one) => `invented ${one}`),
    ...found.filter((one, at) => found.indexOf(one) !== at).map((one) => `twice ${one}`),
    ...due.filter((one) => !found.includes(one)).map((one) => `lost ${one}`),
    ...those(known, "begun").filter(({ id }) => !told.some((one) => one.id === id)).map(({ id }) => `not told: ${id}`),
    ...told.filter(({ id }) => begun(id).length !== 1).map(({ id }) => `begun ${begun(id).length} times: ${id}`),
    ...told.filter((one) => !isSaved(one)).map(({ id }) => `not saved: ${id}`),
    ...(runs.includes(watch.number) ? [`run ${watch.number} comes again`] : []),
  ];
});

/** How many places the ring has among some files, up to the first that is missing; one that is packed is whole. */
function bitsIn(files) {
  const segments = [...files].filter(([name]) => /^ring\/[0-9-]+(\.gz)?$/.test(name)).sort();
  let past = 0;
  for (const [at, [name, octets]] of segments.entries()) {
    const place = Number(name.slice(12).split(".")[0]);
    if (place > past) break;
    const next = Number(segments[at + 1]?.[0].slice(12).split(".")[0] ?? place);
    past = name.endsWith(".gz") ? next : place + 4 * octets.length;
  }
  return past;
}

for (const isFlushed of [false, true]) {
  const what = isFlushed ? "only what was flushed" : "all that was written";
  test(`power fails after each step, and ${what} is left`, async () => {
    const [steps, left] = [await stepsOfRun(), new Left()];
    const kinds = new Set(steps.map(({ kind }) => kind));
    assert.deepEqual([...kinds].sort(), ["open", "remove", "rename", "sync", "syncFolder", "write"]);
    for (const [number, step] of steps.entries()) {
      left.step(step);
      const [all, files] = [left.files(false), left.files(isFlushed)];
      const lost = (bitsIn(all) - bitsIn(files)) / RATE;
      assert.ok(lost <= KEEP + 1, `${lost} s of bits are lost after step ${number}`);
      const problems = await problemsAfter(files, bitsIn(files));
      assert.deepEqual(problems, [], `after step ${number}, ${step.kind} ${step.path}`);
    }
  });
}

test("power fails while bits come as fast as the bus sends them: ten seconds of them are lost at most", () =>
  inFolder(async (folder) => {
    const [disk, left, { steady }] = [new TakenDown(folder), new Left(), CLOCKS];
    const watch = new Tried(folder, disk);
    watch.keepBits = watch.ring.segment = Infinity;
    await watch.begin();
    watch.decoder.hear = () => undefined; // nothing is wrong on the bus
    try {
      for (let second = 1; second <= 35; second++) {
        CLOCKS.steady = () => second;
        await watch.take(Buffer.from("0".repeat(RATE)));
        await disk.idle;
        disk.steps.splice(0).forEach((step) => left.step(step));
        const lost = second - bitsIn(left.files(true)) / RATE;
        assert.ok(lost < 10, `${lost} s of bits are lost after ${second} s`);
      }
    } finally {
      CLOCKS.steady = steady;
    }
  }));

for (const flushes of [0, 1]) {
  test(`bits come while a slow disk flushes ${flushes} things a second, and power fails after each step`, async () => {
    const [steps, left] = [await stepsOfSlowRun(flushes), new Left()];
    for (const [number, step] of steps.entries()) {
      left.step(step);
      for (const isFlushed of [false, true]) {
        const files = left.files(isFlushed);
        const problems = await problemsAfter(files, bitsIn(files));
        assert.deepEqual(problems, [], `after step ${number}, ${step.kind} ${step.path ?? step.to}`);
      }
    }
  });
}

test("power fails after each step, and by chance some is left that was not flushed", async () => {
  const [steps, left, random] = [await stepsOfRun(), new Left(), randomOf(29)];
  for (const [number, step] of steps.entries()) {
    left.step(step);
    for (let count = 0; count < 2; count++) {
      const files = left.mixed(random);
      const problems = await problemsAfter(files, bitsIn(left.files(true)));
      assert.deepEqual(problems, [], `after step ${number}, ${step.kind} ${step.path ?? step.to}`);
    }
  }
});

/** The steps of a next run on some files, which takes over what the run before left. */
const stepsOfNext = (files) => inFolder(async (folder) => {
  lay(files, folder);
  const disk = new TakenDown(folder);
  const watch = new Tried(folder, disk);
  await watch.begin();
  await watch.end();
  return disk.steps;
});

/** Whether a step changes what a next run finds of the run before. */
const isTold = ({ kind, path = "", to = "" }) => (kind === "write" && path === "incidents.jsonl") || to === "state.json";

test("power fails after each step of a next run too, which takes over what the run before left", async () => {
  const [steps, left] = [await stepsOfRun(), new Left()];
  let tried = 0;
  for (const [number, step] of steps.entries()) {
    left.step(step);
    if (!isTold(step)) continue;
    for (const isFlushed of [false, true]) {
      const files = left.files(isFlushed);
      const next = new Left(files);
      for (const [at, own] of (await stepsOfNext(files)).entries()) {
        next.step(own);
        const found = next.files(isFlushed);
        const problems = await problemsAfter(found, bitsIn(files));
        assert.deepEqual(problems, [], `after step ${number}, then ${at}, ${own.kind} ${own.path ?? own.to}`);
        tried += 1;
      }
    }
  }
  assert.ok(tried > 500, `${tried}`);
});

test("power fails at each octet of what is written: the log has whole lines, the state is the one before", async () => {
  const [steps, left] = [await stepsOfRun(), new Left()];
  const states = steps.filter(({ kind, path }) => kind === "write" && path === "state.json.new");
  await inFolder(async (folder) => {
    for (const step of steps) {
      const before = left.files(false);
      left.step(step);
      if (step.kind !== "write" || (step.path !== "incidents.jsonl" && !states.slice(-2).includes(step))) continue;
      const known = logOf(before);
      const state = before.get("state.json")?.toString();
      const whole = left.files(false).get(step.path) ?? Buffer.alloc(0);
      lay([...before].filter(([name]) => !name.startsWith("ring/")), folder);
      for (let cut = 0; cut < step.octets.length; cut++) {
        lay([[step.path, whole.subarray(0, whole.length - step.octets.length + cut)]], folder);

        const journal = new Journal(join(folder, "incidents.jsonl"), () => {}, assert.fail, new Quick());
        assert.deepEqual(journal.told(), known);
        const kept = read(join(folder, "state.json"), assert.fail, new Quick());
        assert.equal(JSON.stringify(kept), state ?? JSON.stringify(kept));
      }
    }
  });
});

test("power fails at any octet of a segment: what the next run judges is what stood before it", async () => {
  const [steps, left] = [await stepsOfRun(), new Left()];
  for (const step of steps) {
    const before = left.files(false);
    left.step(step);
    if (step.kind !== "write" || !step.path.startsWith("ring/") || step.path.endsWith(".new")) continue;
    const whole = left.files(false).get(step.path) ?? Buffer.alloc(0);
    const octets = whole.subarray(0, whole.length - (step.octets.length >> 1) - 1);
    const files = new Map([...before, [step.path, octets]]);
    assert.deepEqual(await problemsAfter(files, bitsIn(files)), []);
  }
});

/** What stands in place of a part of a file. */
const PARTS = [null, true, 0, -1, 1.5, 1e300, -1e300, 9e15, "", "x", "1-1", [], {}, [[]], [null], [{}], { a: 1 }];

/** The ways to all parts of a value. */
const waysIn = (value, way = []) =>
  [way, ...Object.entries(Object(value)).flatMap(([name, part]) =>
    (typeof value === "object" ? waysIn(part, [...way, name]) : []))];

/** A value of which a part is another one, or is not there. */
function spoilt(value, random) {
  const copy = structuredClone(value);
  const way = random.one(waysIn(copy).slice(1));
  const owner = way.slice(0, -1).reduce((part, name) => part[name], copy);
  if (random.once(4)) delete owner[way[way.length - 1]];
  else owner[way[way.length - 1]] = random.one(PARTS);
  return copy;
}

test("a state or a log of which a part is another one is read or set aside, and never ends the watch", async () => {
  const [steps, left, random] = [await stepsOfRun(), new Left(), randomOf(17)];
  for (const step of steps) {
    left.step(step);
    if (step.kind !== "rename" || step.to !== "state.json") continue;
    for (let count = 0; count < 12; count++) {
      const files = left.files(false);
      const state = spoilt(JSON.parse(files.get("state.json").toString()), random);
      const log = logOf(files).map((entry) => (random.once(4) ? spoilt(entry, random) : entry));
      files.set("state.json", Buffer.from(JSON.stringify(state)));
      files.set("incidents.jsonl", Buffer.from(log.map((entry) => `${JSON.stringify(entry)}\n`).join("")));
      await inFolder(async (folder) => {
        lay(files, folder);
        /** @type {string[]} */
        const said = [];
        const watch = new Tried(folder, new Quick(), (text) => said.push(text));
        await watch.begin();
        await watch.end();
        const [line = "the state: "] = said;
        assert.ok(said.length <= 1 && line.startsWith("the state: ") && !line.includes("\n"), said.join("\n"));
      });
    }
  }
});

/** Texts in place of the state. */
const JUNK = ["", "{", "{}", "[]", "null", "7", '"state"', '{"run":"x"}', '{"run":1,"isOver":true}'];

test("a state of another shape is set aside in one line, and its run is not numbered again", async () => {
  const steps = await stepsOfRun();
  const left = new Left();
  const begun = steps.findIndex(({ octets }) => octets?.toString().startsWith('{"event":"begun"'));
  steps.slice(0, begun + 3).forEach((step) => left.step(step));
  for (const junk of [...JUNK, null]) {
    await inFolder(async (folder) => {
      const files = left.files(false);
      if (junk === null) files.delete("state.json");
      else files.set("state.json", Buffer.from(junk));
      lay(files, folder);
      /** @type {string[]} */
      const said = [];
      const watch = new Tried(folder, new Quick(), (text) => said.push(text));
      await watch.begin();
      await watch.end();
      assert.equal(watch.number, 2);
      const lines = said.filter((text) => text.startsWith("the state: ") && !text.includes("\n"));
      assert.equal(lines.length, junk === null ? 0 : 1);
      assert.equal(readdirSync(folder).includes("state.json.bad"), junk !== null);
      const told = those(entriesOf(readFileSync(join(folder, "incidents.jsonl"), "utf8")), "incident");
      const found = told.map(({ id, place, cut }) => [id, place, cut]);
      assert.deepEqual(found, [["1-1", WANTED[0][1], true]], junk ?? "none");
    });
  }
});
