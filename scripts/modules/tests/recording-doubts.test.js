// Facts of a recording, and what they make doubtful: each once, with its place; and what the page knows of a warning.

import assert from "node:assert/strict";
import { test } from "node:test";
import { doubtsOf, edgesOf, warningOf } from "../recording/doubts.js";
import { factsIn } from "../recording/facts.js";
import { Moments } from "../recording/moments.js";

const NAMES = ["TXC", "TXD", "RXC", "RXD"];

/** Four samples a bit, a thousand bits of either line, the data at rest in the end. */
const GOOD = {
  samples: "4000",
  "txc-level": "0",
  "txd-level": "1",
  "rxc-level": "0",
  "rxd-level": "1",
  "txc-changes": "2000 2 3999",
  "txd-changes": "400 4 3900",
  "rxc-changes": "2000 2 3999",
  "rxd-changes": "400 4 3900",
  "first-bits": "1000 2 3998",
  "second-bits": "1000 3 3999",
  "first-gap": "4 2",
  "second-gap": "4 3",
  "txd-high": "20 80 3000",
  "rxd-high": "20 80 3000",
  "first-jumps": "0 0 0",
  "second-jumps": "0 0 0",
};

const factsWith = (facts) => factsIn(Object.entries({ ...GOOD, ...facts }).map((fact) => fact.join(" ")));

function warned(facts, names = NAMES, how = {}) {
  const { rising = true, ticks = null, begin = 0, isSampled = false } = how;
  return doubtsOf(factsWith(facts), names, { rising, when: new Moments(ticks, begin), isSampled });
}

const EDGE = "the data changes at the edge of TXC that is taken: try it";

const EDGE_OF_SECOND = EDGE.replace("TXC", "RXC");

/** The data of the first line changes while its clock is high. */
const HIGH = { "txd-high": "300 4 3900" };

/** A hundred thousand bits. */
const LONG = { samples: "400000", "first-bits": "100000 2 399998", "rxd-changes": "400 4 390000", "second-bits": "100000 3 399999" };

/** What the controller's clock has is data, and what it is not. */
const DATA_AS_CLOCK = { "txc-changes": "400 2 3999", "first-bits": "200 2 3998" };

/** Facts, and the sorts, places and texts of the warnings. */
const CASES = [
  ["a good recording", {}, []],
  ["no edges", { "first-bits": "0 0 0", "second-bits": "0 0 0" }, ["TXC has no edges", "RXC has no edges"]],
  ["flat data", { "txd-changes": "0 0 0", "rxd-changes": "0 0 0" }, ["TXD never changes", "RXD never changes"]],
  ["flat data of few bits", { "txd-changes": "0 0 0", "first-bits": "15 2 58", samples: "60", "txc-level": "0" }, []],
  ["the wrong edge", { ...HIGH, "rxd-high": "300 4 3900" }, [`${EDGE} with --falling`, `${EDGE_OF_SECOND} with --falling`]],
  ["the wrong edge of one clock of two", HIGH, [EDGE.replace("try it", "say --invert TXC, or exchange the wires of its pair")]],
  ["the wrong edge of one, and too little of the other", { ...HIGH, "rxd-changes": "7 4 3900" }, [`${EDGE} with --falling`]],
  ["few changes", { "txd-changes": "7 4 3900", "txd-high": "7 4 3900" }, []],
  ["a stop of the first clock", { "first-gap": "65 800" }, ["TXC stops (for 65 samples from sample 800 on)"]],
  ["a rest of the first clock that is none", { "first-gap": "63 800" }, []],
  ["a stop of the second clock", { "second-gap": "9999 800" }, []],
  ["a stop until the end", { "first-bits": "900 2 3600", samples: "4000" }, ["TXC stops, and does not go on until the recording ends (at sample 3600)"]],
  ["a stop, and data that changes meanwhile", { "first-gap": "65 800", "txd-high": "300 4 3900" }, ["TXC stops (for 65 samples from sample 800 on)"]],
  [
    "a stop, at whose ends the edges jump",
    { "first-gap": "65 800", "first-jumps": "2 865 869" },
    ["TXC stops (for 65 samples from sample 800 on)"],
  ],
  ["samples lost", { "first-jumps": "1 70 70" }, ["the edges of TXC jump: its wire has glitches, or samples were lost (at sample 70)"]],
  ["samples lost twice", { "first-jumps": "2 70 90" }, ["the edges of TXC jump: its wire has glitches, or samples were lost (2 times, first at sample 70)"]],
  ["data that rests at 0", { "txd-level": "0", "txd-changes": "400 4 2970" }, ["TXD rests at 0: if the two wires of its pair are exchanged, say --invert TXD"]],
  ["data that stays at 0", { "txd-level": "0", "txd-changes": "401 68 2970" }, ["TXD stops, and does not go on until the recording ends (at sample 2970)"]],
  ["data that stays at 1", { ...LONG, "txd-changes": "400 68 900" }, ["TXD stops, and does not go on until the recording ends (at sample 900)"]],
  ["data of a bus that says nothing more", { ...LONG, "txd-changes": "400 68 900", "rxd-changes": "400 68 1200" }, []],
  ["a second clock that stops", { "second-bits": "700 3 2800" }, ["RXC stops, and does not go on until the recording ends (at sample 2800)"]],
  ["a second clock that jumps", { "second-jumps": "7 500 600" }, ["the edges of RXC jump: its wire has glitches, or samples were lost (7 times, first at sample 500)"]],
  ["a second clock that rests, and jumps with that", { "second-gap": "65 800", "second-jumps": "2 865 869" }, []],
  ["clock and data", { ...DATA_AS_CLOCK, "txd-changes": "2000 2 3999" }, ["TXD has the edges of a clock, and TXC has not: are the two exchanged?"]],
  ["data of either line", { "txd-high": "200 4 3900", "rxd-high": "200 4 3900" }, ["TXD and RXD do not change with their clocks: are the two exchanged?"]],
  ["data that is 0 for a while", { "txd-level": "0", "txd-changes": "400 4 2980" }, []],
];

for (const [name, facts, texts] of CASES) {
  test(name, () => assert.deepEqual(warned(facts).map(({ text }) => text), texts));
}

test("times in seconds, from the begin of the recording on", () => {
  const [{ text, second, count, sort, name }] = warned({ "first-jumps": "2 614400 614400" }, NAMES, { ticks: 614400, begin: 307200 });
  assert.equal(text, "the edges of TXC jump: its wire has glitches, or samples were lost (2 times, first at 1.500000 s)");
  assert.deepEqual([second, count, sort, name], [1.5, 2, "lost", "TXC"]);
});

test("a controller's clock that rests again and again, as that of the stations does", () => {
  const seldom = { "txc-changes": "200 2 3999", "txd-changes": "90 4 3900", "first-jumps": "20 100 3000" };
  const said = "RXC always runs, as the controller's clock does, and TXC does not: are the two";
  for (const [bits, what] of [["100 2 3998", "pairs "], ["100 90 3998", ""]]) {
    const [{ text, sort, name }, ...more] = warned({ ...seldom, "first-bits": bits }, NAMES, { ticks: 614400 });
    assert.deepEqual([text, more], [`${said} ${what}exchanged?`, []]);
    assert.deepEqual(warningOf(text), { sort, name, count: 1, second: null, text });
  }
});

test("too few samples", () => {
  const facts = { samples: "3000", "first-bits": "1000 2 2998" };
  const [{ text }] = warned(facts, NAMES, { ticks: 460800, isSampled: true });
  assert.deepEqual(warned(facts, NAMES, { ticks: 460800 }).filter(({ sort }) => sort === "slow"), []);
  assert.equal(text, "TXC has fewer than four samples a bit: record 1 million samples a second or more");
});

test("bits at falling edges", () => {
  const both = { ...HIGH, "rxd-high": "300 4 3900" };
  const texts = [`${EDGE} without --falling`, `${EDGE_OF_SECOND} without --falling`];
  assert.deepEqual(warned(both, NAMES, { rising: false }).map(({ text }) => text), texts);
});

test("one clock for two lines", () => {
  const names = ["CLK", "TXD", "CLK", "RXD"];
  assert.deepEqual(warned({}, names), []);
  const own = "RXD does not change with the clock: it has a clock of its own, whose channel is to be named";
  assert.deepEqual(warned({ "rxd-high": "200 4 3900" }, names).map(({ text }) => text), [own]);
});

/** @type {[string[], string][]} */
const EDGES = [
  [NAMES, "TXC has 1000 edges, RXC has 1 edge"],
  [["CLK", "TXD", "CLK", "RXD"], "CLK has 1000 edges"],
  [["CLK", "DAT"], "CLK has 1000 edges"],
];

test("edges of each clock, once where both lines have one", () => {
  for (const [names, wanted] of EDGES) assert.equal(edgesOf(factsWith({ "second-bits": "1 3 3" }), names), wanted);
});

test("one line", () => assert.deepEqual(warned({ "second-bits": "0 0 0", "rxd-changes": "0 0 0" }, ["CLK", "DAT"]), []));

/** Names that a careless pattern would take for something else. */
const HARD_NAMES = ["TXC", "clk [0]", "D0 (at 3 s)", "a.b*c"];

for (const name of HARD_NAMES) {
  test(`warnings of ${name}, read again as they were written`, () => {
    const names = [name, `${name} data`, "RXC", "RXD"];
    for (const [, facts] of CASES) {
      for (const how of [{}, { ticks: 614400, begin: 5 }]) {
        for (const warning of warned(facts, names, how)) {
          const { line, ...told } = warning;
          const second = warning.second === null ? null : Number(warning.second.toFixed(6));
          assert.deepEqual(warningOf(warning.text), { ...told, second });
        }
      }
    }
  });
}

/**
 * What is lacking or wrong in a recording, and the warning.
 * @type {[import("../recording/seams.js").Seam, string][]}
 */
const SEAMS = [
  [
    { sort: "samples", name: "TXC", from: 70, count: 1, stretches: [{ first: 17, past: 17 }] },
    "the analyser lost samples: TXC is out of step from place 17 on (at sample 70)",
  ],
  [
    { sort: "samples", name: "TXC", from: 70, count: 2, stretches: [{ first: 17, past: 17 }, { first: 40, past: 40 }] },
    "the analyser lost samples: TXC is out of step from places 17, 40 on (2 times, first at sample 70)",
  ],
  [
    { sort: "samples", name: "TXC", from: 70, count: 99, stretches: [{ first: 17, past: 900 }] },
    "the analyser lost samples: TXC is out of step from places 17 to 900 on (99 times, first at sample 70)",
  ],
  [
    { sort: "piece", name: "logic-1-2", from: 70, count: 1, stretches: [{ first: 17, past: 17 }] },
    "the recording lacks logic-1-2: samples were lost at place 17 (at sample 70)",
  ],
  [
    { sort: "checksum", name: "logic-1-2", from: 70, count: 1, stretches: [{ first: 17, past: 90 }] },
    "the checksum of logic-1-2 is wrong: samples are damaged from places 17 to 90 (at sample 70)",
  ],
];

for (const [seam, text] of SEAMS) {
  test(`a recording with a seam: ${text}`, () => {
    const how = { rising: true, when: new Moments(null), seams: [seam] };
    const [found, ...more] = doubtsOf(factsWith({ "first-jumps": "2 70 76" }), NAMES, how);
    assert.deepEqual([found.text, found.stretches, more], [text, seam.stretches, []]);
    assert.deepEqual(warningOf(text), { ...found, second: null });
  });
}

test("glitches beside samples that were lost", () => {
  const how = { rising: true, when: new Moments(null), seams: [SEAMS[0][0]] };
  const sorts = doubtsOf(factsWith({ "first-jumps": "3 70 900" }), NAMES, how).map(({ sort }) => sort);
  assert.deepEqual(sorts, ["samples", "lost"]);
});

test("a text that is no warning", () => {
  assert.deepEqual(warningOf("it rained"), { sort: "other", name: "", count: 1, second: null, text: "it rained" });
});

test("a fact that is not there", () => assert.throws(() => factsIn(["samples 5"]), /port1-sample wrote no fact txc-level/));

test("stops of the first clock, of which the longest has its place, are counted", () => {
  /** @type {import("../recording/seams.js").Seam[]} */
  const seams = [{ sort: "stops", name: "TXC", from: 0, count: 15, stretches: [], samples: 700, place: 200 }];
  const how = { rising: true, when: new Moments(null), seams };
  const [{ sort, count, text, stood, place }] = doubtsOf(factsWith({ "first-gap": "65 800" }), NAMES, how);
  assert.deepEqual([sort, count, stood, place], ["gap", 15, undefined, 200]);
  assert.equal(text, "TXC stops (15 times, 700 samples in all, the longest for 65 samples from sample 800 on)");
});

/** Texts of stops, how often, when, and for how long in all; recordings of before say only the longest of several. */
const STOPS = /** @type {const} */ ([
  ["TXC stops (15 times, 12.500000 s in all, the longest for 1.000007 s from 5.000017 s on)", 15, 5.000017, 12.5],
  ["TXC stops (for 1.000007 s from 5.000017 s on)", 1, 5.000017, 1.000007],
  ["TXC stops (for 65 samples from sample 800 on)", 1, null, undefined],
]);

test("texts of stops say for how long the clock stood still", () => {
  for (const [text, count, second, stood] of STOPS) {
    const read = warningOf(text);
    assert.deepEqual([read.sort, read.name, read.count, read.second, read.stood], ["gap", "TXC", count, second, stood]);
  }
});

