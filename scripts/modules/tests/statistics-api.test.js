// What the page takes of the statistics beside the report, on listings written by hand, and how fast it is.

import assert from "node:assert/strict";
import { test } from "node:test";

import { Bus } from "../statistics/bus.js";
import { damageOf } from "../statistics/damage.js";
import { repliesOf } from "../statistics/replies.js";
import { report } from "../statistics/report.js";
import { headLine } from "../statistics/sentences.js";
import { Slots } from "../statistics/slots.js";
import { tableOf } from "../statistics/table.js";
import { verdictOf } from "../statistics/verdict.js";
import { wrong } from "../statistics/wrong.js";
import { rowsOf } from "./support/listing.js";
import { madeListing } from "./support/made_listing.js";

const textsOf = (sentences) => sentences.map(({ text }) => text);

// How long a million rows may take, the least of so many turns, on a machine that has other work too.
const MOST_MILLISECONDS = 3000;
const TURNS = 3;

function busOf(listing, rate = 153600) {
  const bus = new Bus(rate);
  bus.takeAll(rowsOf(listing));
  return bus;
}

const command = (first, station, type) =>
  `1 ${first} ${first + 41} frame ${station}83${type}fde5 station 16 type 0 call\n`;
const answer = (first) => `2 ${first} ${first + 41} frame 108380fde5 station 16 type 128 reply\n`;
const verdict = (word, first) => `1 ${first} ${first + 41} ${word} station 16 type 0\n`;

const exchange = (first, replyBits, word) =>
  command(first, "10", "00") + answer(first + 41 + replyBits) + verdict(word, first);

// Four commands each 10 ms, of which the second is answered late and the last one not; damage in between.
const LISTING =
  exchange(8, 100, "answered") + exchange(1544, 400, "late") + exchange(3080, 100, "answered") +
  "2 4000 4040 damaged fcs\n" +
  command(4616, "10", "00") +
  verdict("missing", 4616);

test("what is wrong, without numbers and unwrapped", () => {
  const bus = busOf(LISTING);
  assert.deepEqual(textsOf(wrong(bus)), [
    "Station 16 gave no answer to 1 of 4 commands of type 0 (call), at 0.030 s.",
    "Station 16 answered 1 of 4 commands of type 0 (call) late, at 0.010 s: after 2.6 ms; in time after 0.65 ms.",
    "1 piece is damaged; see below.",
  ]);
  assert.deepEqual(verdictOf(bus).lacks, []);
  assert.equal(headLine(bus), "0.030 s of two lines at 153600 bits a second: 7 frames, 1 damaged piece.");
});

test("what came in place of an answer came on the line of answers", () => {
  const saidOf = (line) => {
    const other = `${line} 100 141 frame 098380fde5 station 9 type 128 unknown\n`;
    const [first] = textsOf(wrong(busOf(command(8, "10", "00") + other + verdict("missing", 8))));
    return first;
  };
  const silent = "Station 16 is silent: it answered none of 1 command, of type 0 (call).";
  assert.equal(saidOf(1), silent);
  assert.equal(saidOf(2), `${silent} In place of the answer came once another one, last of station 9, type 128, unknown.`);
});

test("a listing begins at its least place, wherever that stands", () => {
  assert.match(headLine(busOf("307200 307215 idle\n153600 153615 idle\n460785 460800 idle\n")), /^2\.000 s of one line/);
});

test("where nothing is wrong, that and the doubts are said", () => {
  const said = (listing) => {
    const bus = busOf(listing);
    assert.deepEqual(wrong(bus), []);
    const { well, lacks, notes } = verdictOf(bus);
    return [...well, ...textsOf([...lacks, ...notes])];
  };
  assert.deepEqual(said(""), ["The listing is empty: nothing is known of the bus. Where a fault was told, mend that first."]);
  assert.deepEqual(said("8 49 frame 108300fde5\n"), [
    "Nothing is damaged, and no gap between commands stands out.",
    "The listing was made without a dictionary: which commands were answered, and when, is not known.",
  ]);
  assert.deepEqual(said(exchange(8, 100, "answered") + verdict("pending", 900)), [
    "Nothing is damaged, missing or spoilt, and no gap between commands stands out.",
    "Whether any reply could be judged late is not known: name the dictionary with --dictionary FILE.",
    "1 command at the end still waits for an answer.",
  ]);
});

test("the numbers of the table", () => {
  const { heads, rows } = tableOf(busOf(LISTING));
  assert.deepEqual(rows, [
    {
      kind: { station: 16, type: 0 },
      name: "call",
      cells: [
        ...["16", "0", "call", "4", "2", "1", "1", "0", "50.0", "0.65", "0.65", "2.60", "2.60"],
        ...["10.00", "10.00", "0.000"],
      ],
    },
  ]);
  assert.equal(heads.length, rows[0].cells.length);
  assert.deepEqual(heads[8], { group: "bad", name: "%", isLeft: false });
  assert.deepEqual(heads[2], { group: "", name: "name", isLeft: true });
});

test("where the damage is", () => {
  const pieces = [...Array(9).keys()].map((at) => `1 ${at * 15} ${at * 15 + 9} abort\n`).join("");
  const bus = busOf(`${pieces}1 153600 153609 abort\n1 1535990 1536000 idle\n`);
  assert.deepEqual(damageOf(bus), {
    sentence: "Damage by cause: line 1: 10 abort.",
    where: "Most of it lies here:",
    stretches: [{ begin: 0, past: 500, text: "0.000 to 0.500 s", pieces: 9, share: 90 }],
  });
  assert.deepEqual(damageOf(busOf("")), { sentence: "", where: "", stretches: [] });
});

test("damage that only wider slots of time show: 3 of 6 pieces in the first half of a second", () => {
  const pieces = [0.05, 0.25, 0.45, 2.1, 3.7, 5.1].map((second) => Math.round(second * 153600));
  const bus = busOf(`${pieces.map((place) => `${place} ${place + 9} abort\n`).join("")}0 15 idle\n921585 921600 idle\n`);
  assert.deepEqual(damageOf(bus).stretches, [{ begin: 0, past: 500, text: "0.000 to 0.500 s", pieces: 3, share: 50 }]);
});

test("a slot with twice the mean is none of much damage: 30 pieces in 30 slots, 2 of them beside one with 20", () => {
  const slots = [...Array(20).fill(6), 5, 5, ...[0, 10, 12, 14, 16, 18, 20, 22]];
  const pieces = slots.map((slot, at) => slot * 15360 + at * 60).map((place) => `${place} ${place + 9} abort\n`);
  const bus = busOf(`${pieces.join("")}0 15 idle\n460785 460800 idle\n`);
  const found = damageOf(bus).stretches.map(({ begin, past, pieces: count }) => [begin, past, count]);
  assert.deepEqual(found, [[600, 700, 20]]);
});

test("damage in so many milliseconds is kept in no more than 4096 slots", () => {
  const rows = [[4096, 1, 4096], [4097, 10, 410], [40_960, 10, 4096], [40_961, 100, 410]];
  for (const [count, milliseconds, size] of rows) {
    const slots = new Slots(1000);
    for (let place = 0; place < count; place += 1) slots.add(place);
    assert.deepEqual([slots.milliseconds, slots.counts.size], [milliseconds, size], `${count}`);
    assert.equal([...slots.counts.values()].reduce((sum, pieces) => sum + pieces), count);
  }
});

test("times to answers by kinds, and of all", () => {
  const poll = "1 9000 9041 frame 118301fde5 station 17 type 1 poll\n";
  const state = "2 9050 9091 frame 118381fde5 station 17 type 129 state\n";
  const ask = "1 9500 9541 frame 118302fde5 station 17 type 2 ask\n";
  const told = "2 9800 9841 frame 118382fde5 station 17 type 130 told\n";
  const inTime = `${poll}${state}1 9000 9041 answered station 17 type 1\n`;
  const bus = busOf(`${LISTING}${inTime}${ask}${told}1 9500 9541 late station 17 type 2\n`);
  const { all, kinds } = repliesOf(bus);
  const shown = kinds.map(({ kind, name, inTime, late }) => {
    return [kind.station, kind.type, name, inTime.pairs(), late.pairs()];
  });
  assert.deepEqual(shown, [
    [16, 0, "call", [[100, 2]], [[400, 1]]],
    [17, 1, "poll", [[9, 1]], []],
    [17, 2, "ask", [], [[259, 1]]],
  ]);
  const both = [[9, 1], [100, 2]];
  const ofLate = [[259, 1], [400, 1]];
  assert.deepEqual([all.inTime.pairs(), all.late.pairs()], [both, ofLate]);
});

test("a listing taken piece by piece", () => {
  for (let seed = 1; seed < 40; seed += 1) {
    const rows = rowsOf(madeListing(seed, seed % 2 === 0));
    const [whole, pieces] = [new Bus(153600), new Bus(153600)];
    whole.takeAll(rows);
    for (let at = 0; at < rows.length; at += 1 + (seed % 7)) {
      pieces.takeSome(rows.slice(at, at + 1 + (seed % 7)));
    }
    pieces.end();
    assert.equal(report(pieces), report(whole));
  }
});

/** A row of a listing of two lines, number so and so. */
function rowAt(at, kind) {
  const isTyped = kind === "frame" || kind === "answered";
  return {
    line: kind === "damaged" ? 2 : 1,
    first: at * 400,
    past: at * 400 + 41,
    kind,
    octets: null,
    station: isTyped ? (at >> 2) % 16 : null,
    type: isTyped ? 0 : null,
    name: kind === "frame" ? "call" : "",
    cause: kind === "damaged" ? "fcs" : "",
    replyBits: kind === "answered" ? (at * 7919) % 60_000 : null,
  };
}

/** How many milliseconds of the processor the statistics of rows take, with their report. */
function timeOf(rows) {
  const begin = process.cpuUsage();
  const bus = new Bus(153600);
  bus.takeAll(rows);
  assert.ok(report(bus).length > 0 && bus.rows === rows.length);
  const { user, system } = process.cpuUsage(begin);
  return (user + system) / 1000;
}

for (const [what, kinds] of [
  ["exchanges", ["frame", "idle", "answered", "idle"]],
  ["damaged pieces", ["damaged", "abort"]],
  ["commands and damaged pieces in turn", ["frame", "damaged", "frame", "abort"]],
]) {
  test(`a million rows of ${what}`, (context) => {
    const rows = Array.from({ length: 1_000_000 }, (_, at) => rowAt(at, kinds[at % kinds.length]));
    const milliseconds = Math.min(...Array.from({ length: TURNS }, () => timeOf(rows)));
    assert.ok(milliseconds < MOST_MILLISECONDS, `${milliseconds} ms`);
    context.diagnostic(`${Math.round(milliseconds)} ms`);
  });
}
