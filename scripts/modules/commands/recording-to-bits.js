import { fstatSync } from "node:fs";
import { Fault } from "../fault.js";
import { doubtsOf, edgesOf } from "../recording/doubts.js";
import { Events } from "../recording/events.js";
import { FORMS, formOfRecording } from "../recording/forms.js";
import { Moments } from "../recording/moments.js";
import { recordingOf } from "../recording/recording.js";
import { samplingOf } from "../recording/sampling.js";
import { sessionOf } from "../recording/session.js";
import { PIECE } from "../recording/source.js";
import { samplerate } from "../recording/units.js";
import { misuse, run, warn, whole, wordsOf, write } from "../system/command.js";
import { openPart, inflated } from "../system/file.js";
import { standardInput } from "../system/input.js";
import { sampled } from "../system/sampler.js";

/** Octets that tell the form of a recording. */
const HEAD = 4096;

/** How long a recording that comes slowly is gathered before its bits are taken, in milliseconds. */
const SOON = 30;

/** @param {string} text */
function formNamed(text) {
  const found = FORMS.find((form) => form === text);
  if (found === undefined) throw new Fault(`${JSON.stringify(text)} is none of ${FORMS.join(", ")}`);
  return found;
}

/**
 * Pieces, the first of which has been read.
 * @param {Uint8Array} first
 * @param {AsyncGenerator<Uint8Array>} more
 */
async function* withFirst(first, more) {
  yield first;
  yield* more;
}

/**
 * The recording on standard input.
 * @param {import("../system/command.js").Values<typeof OPTIONS>} values
 * @param {string[]} channels
 */
async function opened(values, channels) {
  const more = standardInput(PIECE, { least: HEAD, milliseconds: SOON });
  const { value: first = new Uint8Array(0) } = await more.next();
  const form = values.format ?? formOfRecording(first.subarray(0, HEAD));
  const wanted = { form, channels, ticks: values.samplerate };
  if (form === "session") {
    if (!fstatSync(0).isFile()) throw new Fault("a session of sigrok has to be a file: write `< tap.sr`");
    const session = await sessionOf(openPart(0), inflated);
    return recordingOf(session.pieces(() => undefined), { ...wanted, samples: session });
  }
  const width = values.octets ?? 1;
  const names = Array.from({ length: 8 * width }, (_, at) => String(at));
  return recordingOf(withFirst(first, more), { ...wanted, samples: { names, width, ticks: null } });
}

/**
 * The options of the sampler.
 * @param {{ falling?: boolean, hold?: number, invert?: string }} values
 * @param {string[]} names of the wires
 * @param {{ hold: number, jump: number, rest: number }} sampling
 */
function optionsOf({ falling, hold, invert = "" }, names, sampling) {
  const inverted = invert === "" ? [] : invert.split(",");
  const unknown = inverted.find((name) => !names.includes(name));
  if (unknown !== undefined) throw misuse(`--invert: ${unknown} is none of the channels`);
  const wires = ["txc", "txd", "rxc", "rxd"].filter((_, at) => inverted.includes(names[at]));
  const turned = [...(falling ? ["--falling"] : []), ...wires.map((wire) => `--invert-${wire}`)];
  return [`--hold=${hold ?? sampling.hold}`, `--jump=${sampling.jump}`, `--rest=${sampling.rest}`, ...turned];
}

/**
 * What tells doubts as they occur.
 * @param {import("../recording/recording.js").Recording} recording
 * @param {boolean} rising whether bits are taken at rising edges
 */
function lookAt({ names, ticks, begin, losses }, rising) {
  const events = new Events(names, rising);
  return (/** @type {import("../recording/doubts.js").Facts} */ facts) => {
    for (const text of events.look(facts, new Moments(ticks, begin()), losses)) warn(`event: ${text}`);
  };
}

/** @param {string} text */
function octetsOf(text) {
  if (!/^0*[1-8]$/.test(text)) throw new Fault(`${JSON.stringify(text)} is no whole number from 1 to 8`);
  return Number(text);
}

const NUMBERS = { octets: octetsOf, samplerate, hold: whole, rest: whole };

const FLAGS = { falling: /** @type {true} */ (true), events: /** @type {true} */ (true) };

const OPTIONS = { ...NUMBERS, ...FLAGS, format: formNamed, invert: String };

run(async () => {
  const { values, words: channels } = wordsOf(OPTIONS, ["CHANNEL", "second CHANNEL"], 4);
  const recording = await opened(values, channels);
  const { names, ticks } = recording;
  const look = values.events ? lookAt(recording, !values.falling) : undefined;
  if (values.rest && ticks === null) throw misuse("--rest is a number of bits: it takes --samplerate, too");
  const arrivals = sampled(recording, optionsOf(values, names, samplingOf(recording, values.rest)), look);
  let next = await arrivals.next();
  for (; !next.done; next = await arrivals.next()) write(next.value);
  const { facts, fault } = next.value;
  if (fault !== null && facts.samples === 0) throw fault;
  warn(edgesOf(facts, names));
  const when = new Moments(ticks, recording.begin());
  const told = { rising: !values.falling, when, isSampled: !recording.hasRuns, seams: recording.seams() };
  for (const { text } of doubtsOf(facts, names, told)) warn(`warning: ${text}`);
  if (fault !== null) throw fault;
});
