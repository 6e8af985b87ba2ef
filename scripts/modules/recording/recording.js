import { Fault } from "../fault.js";
import { joined } from "../octets.js";
import { plainPieces } from "../text.js";
import { piecesWithCommas } from "./cells.js";
import { positionOf } from "./channels.js";
import { changesOfTable } from "./csv.js";
import { Losses } from "./losses.js";
import { Runs } from "./runs.js";
import { samplingOf } from "./sampling.js";
import { seamsOf } from "./seams.js";
import { Source } from "./source.js";
import { dumpOf } from "./vcd.js";

export { channelsOf, formOfText } from "./forms.js";

/**
 * What is wanted of a recording.
 * @typedef {object} Wanted
 * @property {import("./forms.js").Form|"binary"} form
 * @property {string[]} channels by name: TXC TXD RXC RXD, two lines with a clock each; CLOCK DATA SECOND, two lines
 *   with one clock; CLOCK DATA, one line
 * @property {Samples} [samples] what the samples are of a recording that has some
 * @property {number} [ticks] in a second, in place of what the recording says
 */

/**
 * Samples: the names of their channels, the octets of each, how many there are a second, where that is known, and what
 * the file lacks of them.
 * @typedef {{ names: string[], width: number, ticks: number|null, faults?: import("./seams.js").Seam[] }} Samples
 */

/**
 * A recording as samplers take it: its samples, or runs of them, which are records of 8 octets: the levels of the wires
 * in the first, and in the other seven, the lowest first, in how many samples these stand.
 * @typedef {object} Recording
 * @property {boolean} hasRuns
 * @property {number} width octets of a sample
 * @property {number[]} wires of clock and data of each line: numbers of bits of a sample
 * @property {string[]} names of these wires
 * @property {number|null} ticks samples a second
 * @property {() => number} begin the time of the first sample, in samples, once a piece was read
 * @property {Losses} losses of samples, in the pieces that were read
 * @property {() => import("./seams.js").Seam[]} seams what is lacking or wrong in them
 * @property {AsyncGenerator<Uint8Array>} pieces
 */

/**
 * What reads the changes of a recording that is no row of samples, by its form.
 * @type {Record<Exclude<import("./forms.js").Form, "session">, typeof dumpOf>}
 */
const READERS = { vcd: dumpOf, csv: changesOfTable };

/** The most samples a second of runs: a recording with finer ticks has some of them in one sample. */
const FINEST = 1e7;

/**
 * The wires of clock and data of each line, of some channels.
 * @template T
 * @param {T[]} channels
 */
const wiresOf = ([clock, data, ...others]) =>
  others.length === 1 ? [clock, data, clock, ...others] : [clock, data, ...others];

/**
 * Refuses channels of which one has the data of a line, and is something else, too.
 * @param {number[]} positions
 * @param {string[]} channels
 */
function checkOnce(positions, channels) {
  const isClock = (/** @type {number} */ at) => at % 2 === 0 && positions.length !== 3;
  positions.forEach((position, at) => {
    const other = positions.indexOf(position);
    if (other < at && !(isClock(at) && isClock(other))) throw new Fault(`the channel ${channels[at]} is named twice`);
  });
}

/**
 * A recording, opened.
 * @param {AsyncIterable<Uint8Array>|Iterable<Uint8Array>} pieces of it, of any size
 * @param {Wanted} wanted
 * @returns {Promise<Recording>}
 */
export async function recordingOf(pieces, wanted) {
  const { form, channels, samples } = wanted;
  if (channels.length < 2 || channels.length > 4) throw new Fault("two, three or four channels are to be named");
  const names = wiresOf(channels);
  if (form !== "session" && form !== "binary") {
    const plain = plainPieces(pieces);
    const source = new Source(form === "csv" ? piecesWithCommas(plain) : plain);
    const { ticks, changes, positions, faults = () => [] } = await READERS[form](source, channels);
    checkOnce(positions, channels);
    const known = wanted.ticks ?? ticks;
    const unit = known === null ? 1 : Math.max(1, Math.floor(known / FINEST));
    const runs = new Runs(channels, known, unit);
    const wires = wiresOf([...channels.keys()]);
    const whole = { hasRuns: true, width: 8, wires, names, ticks: known === null ? null : known / unit };
    const all = { ...whole, begin: () => runs.begin };
    const inSamples = () => faults().map((seam) => ({ ...seam, from: seam.from / unit }));
    return watched(all, closing(source, runs.of(changes)), inSamples);
  }
  const source = new Source(pieces);
  if (samples === undefined) throw new Fault("what the samples are is not known");
  const positions = channels.map((name) => positionOf(name, samples.names));
  checkOnce(positions, channels);
  const whole = { hasRuns: false, width: samples.width, wires: wiresOf(positions), names };
  const all = { ...whole, ticks: wanted.ticks ?? samples.ticks, begin: () => 0 };
  return watched(all, closing(source, wholeSamples(source, samples.width)), () => samples.faults ?? []);
}

/**
 * A recording whose first clock is followed while its pieces are read.
 * @param {Omit<Recording, "pieces"|"losses"|"seams">} recording
 * @param {AsyncGenerator<Uint8Array>} pieces
 * @param {() => import("./seams.js").Seam[]} faults of the file, in samples
 * @returns {Recording}
 */
function watched(recording, pieces, faults) {
  const { hasRuns, width, wires: [clock], names: [name] } = recording;
  const losses = new Losses(samplingOf(recording).hold, !hasRuns);
  const watch = async function* () {
    try {
      for await (const piece of pieces) {
        if (hasRuns) losses.takeRuns(piece, clock);
        else losses.takeSamples(piece, width, clock);
        yield piece;
      }
    } finally {
      losses.end();
    }
  };
  return { ...recording, pieces: watch(), losses, seams: () => seamsOf(faults(), losses, name) };
}

/**
 * Pieces; the source of which they are made is closed at their end.
 * @param {Source} source
 * @param {AsyncGenerator<Uint8Array>} pieces
 */
async function* closing(source, pieces) {
  try {
    yield* pieces;
  } finally {
    await source.close();
  }
}

/**
 * Samples, none of which is cut off.
 * @param {Source} source
 * @param {number} width octets of a sample
 */
async function* wholeSamples(source, width) {
  let rest = new Uint8Array(0);
  for await (const piece of source.each()) {
    const octets = joined(rest, piece);
    const whole = octets.length - (octets.length % width);
    yield octets.subarray(0, whole);
    rest = octets.slice(whole);
  }
  if (rest.length > 0) throw new Fault(`the recording ends within a sample of ${width} octets`);
}
