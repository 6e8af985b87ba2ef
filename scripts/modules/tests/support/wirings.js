// What is said of recordings, each a file of samples: all warnings, and the summary, as the commands make them.

import { readFileSync, writeSync } from "node:fs";
import { readDictionary } from "../../dictionary/dictionary.js";
import { RATE } from "../../port1.js";
import { doubtsOf } from "../../recording/doubts.js";
import { Moments } from "../../recording/moments.js";
import { recordingOf } from "../../recording/recording.js";
import { samplingOf } from "../../recording/sampling.js";
import { unsureOf } from "../../recording/seams.js";
import { Bus } from "../../statistics/bus.js";
import { report } from "../../statistics/report.js";
import { sampled } from "../../system/sampler.js";
import { linesOf } from "../../watch/rest.js";

const { dictionary, names, recordings } = JSON.parse(readFileSync(0, "utf8"));
const entries = readDictionary(dictionary);
const LIST = ["list", "--bits", "--arrivals", "--dict", dictionary];

/** @param {{ file: string, channels: number[], options: string[], rate: number }} recorded */
async function saidOf({ file, channels, options, rate }) {
  /** @type {string[]} */
  const samples = [];
  channels.forEach((channel, at) => (samples[channel] = names[at]));
  const given = { form: /** @type {const} */ ("binary"), samples: { names: samples, width: 1, ticks: rate } };
  const recording = await recordingOf([readFileSync(file)], { ...given, channels: names, ticks: rate });
  const { hold, jump } = samplingOf(recording);
  const arrivals = sampled(recording, [`--hold=${hold}`, `--jump=${jump}`, ...options]);
  const bits = [];
  let next = await arrivals.next();
  for (; !next.done; next = await arrivals.next()) bits.push(next.value);
  const { facts } = next.value;
  const how = { rising: !options.includes("--falling"), when: new Moments(rate), isSampled: true };
  const warnings = doubtsOf(facts, names, { ...how, seams: recording.seams() });
  const bus = new Bus(RATE, null, unsureOf(warnings));
  const listed = linesOf(/** @type {string} */ (process.env.PORT1), LIST, Buffer.concat(bits));
  for await (const row of listed) bus.takeSome([row]);
  bus.end();
  const known = { end: facts.lines[0].bits.count || null, entries };
  return { warnings: warnings.map(({ text }) => text), summary: report(bus, known) };
}

const said = [];
for (const recorded of recordings) said.push(await saidOf(recorded));
const text = Buffer.from(JSON.stringify(said));
for (let at = 0; at < text.length; ) at += writeSync(1, text, at);
