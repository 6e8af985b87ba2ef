import assert from "node:assert/strict";
import { readFileSync } from "node:fs";
import { test } from "node:test";
import { Fault } from "../fault.js";
import { channelsOf, formOfText, formOfRecording } from "../recording/forms.js";
import { recordingOf } from "../recording/recording.js";
import { samplingOf } from "../recording/sampling.js";
import { hertz } from "../recording/units.js";

/** What the beginning of a recording tells: its form, its channels, and its rate. */

const BEGINNINGS = {
  vcd: ["$", "  \r\n\t$date", "\xef\xbb\xbf$date", "\xbf\xbb\xef$", "META samplerate: 1\n$date"],
  csv: [";", "; a", "a,b\n", "\t;", "\xef\xbb\xbf;", ",", "0,1\x80", "Time [s],a\r\n", "a;b\n0;1\n", "a\tb\n", "sep=;\na;b\n", "\xff\xfea\0,\0b\0\r\0\n\0"],
  session: ["PK\x03\x04,", "PK\x03\x04"],
  binary: ["x$", "\0$", "0,1\0", "0,1\x7f", "\xef\xbb\xbf", " ", "\x1b,", "\x0b,", "META samplerate: 1\n\0"],
};

function octetsOf(text) {
  return new TextEncoder().encode(text);
}

test("the form by the beginning", () => {
  for (const [form, beginnings] of Object.entries(BEGINNINGS)) {
    for (const beginning of beginnings) {
      const octets = Uint8Array.from(Buffer.from(beginning, "latin1"));
      assert.equal(formOfRecording(octets), form, JSON.stringify(beginning));
      if (form !== "session") assert.equal(formOfText(octets), form === "binary" ? null : form);
    }
  }
  for (const [refused, why] of [["", "the recording is empty"], ["\x89PNG", "this is a picture"]]) {
    const octets = Uint8Array.from(Buffer.from(refused, "latin1"));
    assert.throws(() => formOfRecording(octets), (fault) => fault instanceof Fault && fault.message.startsWith(why));
  }
  const text = octetsOf("0 1 0 1 bits as text with no comma");
  assert.throws(() => formOfRecording(text), /^Error: this is text|this is text/);
});

/** @type {[string, import("../recording/forms.js").Form, string, string[]][]} */
const HEADS = [
  ["names of a table of sigrok", "csv", "; Channels (2/2): clk, data in\nlogic,logic\n0,1\n", ["clk", "data in"]],
  ["columns after the times", "csv", 'Time [s],"a",b c\n0.1,0,1\n', ["a", "b c"]],
  ["columns after a remark", "csv", "; CSV\n\nTime [s],a,b\n0.1,0,1\n", ["a", "b"]],
  ["columns without times", "csv", "a,b\n0,1\n", ["a", "b"]],
  ["numbers of columns that share a name", "csv", "logic,logic,a\n0,1,1\n", ["0", "1", "a"]],
  ["numbers that are names already", "csv", "a,a,0\n0,1,1\n", ["a", "1", "0"]],
  ["a line that is cut", "csv", "; Channels: a, b\nlogic,lo", ["a", "b"]],
  ["no line", "csv", "Time [s],a", []],
  ["signals of one bit", "vcd", "$var wire 1 ! a [0] $end $var wire 2 # b $end $var reg 1 $ c $end", ["a [0]", "c"]],
  ["a definition that is cut", "vcd", "$var wire 1 ! a $end $var wire 1 # da", ["a"]],
  ["a signal in two scopes", "vcd", "$var wire 1 ! a $end $var wire 1 # a $end $enddefinitions $end", ["a"]],
  ["nothing after the definitions", "vcd", "$enddefinitions $end $var wire 1 ! a $end", []],
];

for (const [name, form, head, wanted] of HEADS) {
  test(`channels: ${name}`, () => assert.deepEqual(channelsOf(octetsOf(head), form), wanted));
}

test("channels of a table whose times have no unit", () => {
  const fault = new Fault('the times of the column "Time" have no known unit: export them in seconds');
  assert.throws(() => channelsOf(octetsOf("Time,a\n0,1\n"), "csv"), fault);
});

test("channels of the example of four wires", () => {
  const head = readFileSync(new URL("../../../examples/four-wires.csv", import.meta.url)).subarray(0, 4096);
  assert.equal(formOfText(head), "csv");
  assert.deepEqual(channelsOf(head, "csv"), ["TXC", "TXD", "RXC", "RXD"]);
});

/** @type {[string, number][]} */
const RATES = [
  ["4000000", 4e6], ["4 MHz", 4e6], ["4M", 4e6], [" 24 MHz ", 24e6], ["1.5 kHz", 1500], ["1 GHz", 1e9], ["0.25G", 25e7],
];

test("rates in hertz", () => {
  for (const [text, rate] of RATES) assert.equal(hertz(text), rate, text);
  for (const text of ["", "fast", "-1 MHz", "4 mHz", "4 THz", "1e6"]) assert.throws(() => hertz(text), Fault, text);
});

const DUMP = "$var wire 1 ! a $end $var wire 1 # b $end $enddefinitions $end #0 0! 0# #9 1!\n";

/**
 * Samples a second of a recording: those that it tells, or the ones that are asked for; of runs no more than 10 MHz.
 * @type {[import("../recording/forms.js").Form|"binary", string, number|undefined, number|null][]}
 */
const TICKS = [
  ["vcd", DUMP, undefined, null],
  ["vcd", `$timescale 1 us $end ${DUMP}`, undefined, 1e6],
  ["vcd", `$timescale 1 us $end ${DUMP}`, 4e6, 4e6],
  ["vcd", `$timescale 1 ns $end ${DUMP}`, undefined, 1e7],
  ["csv", "a,b\n0,1\n", undefined, null],
  ["csv", "a,b\n0,1\n", 4e6, 4e6],
  ["csv", "; Samplerate: 2 MHz\na,b\n0,1\n", undefined, 2e6],
  ["csv", "; Samplerate: 2 MHz\na,b\n0,1\n", 4e6, 4e6],
  ["session", "\0", undefined, 2e6],
  ["session", "\0", 4e6, 4e6],
];

for (const [form, text, asked, wanted] of TICKS) {
  test(`samples a second of ${JSON.stringify(text.slice(0, 30))}, asked for ${asked}`, async () => {
    const samples = { names: ["a", "b"], width: 1, ticks: 2e6 };
    const { ticks } = await recordingOf([octetsOf(text)], { form, channels: ["a", "b"], ticks: asked, samples });
    assert.equal(ticks, wanted);
  });
}

/** A glitch is shorter than a sixteenth of a bit, and port1-sample takes a hold of at most 65535 samples. */
test("the hold of a rate", () => {
  for (const [bit, hold] of [[26, 1], [160, 10], [16 * 65535, 65535], [16 * 65536, 65535]]) {
    assert.equal(samplingOf(/** @type {any} */ ({ hasRuns: false, ticks: 153600 * bit })).hold, hold, `${bit} samples`);
  }
});
