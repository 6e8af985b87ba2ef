import { ClockedDecoder } from "../engine/clocked.js";
import { Decoder } from "../engine/decoder.js";
import { ARRIVAL } from "../engine/layout.js";
import { libraryOf } from "../engine/library.js";
import { KeptMarks, Packer } from "../engine/marks.js";
import { Sampler } from "../engine/sampler.js";
import { FORMS } from "../../../scripts/modules/capture/forms.js";
import { PackedReader } from "../../../scripts/modules/capture/packed.js";
import { TextReader } from "../../../scripts/modules/capture/text.js";
import { Fault } from "../../../scripts/modules/fault.js";
import { ListingReader } from "../../../scripts/modules/listing/read.js";
import { doubtsOf, edgesOf } from "../../../scripts/modules/recording/doubts.js";
import { isRecording } from "../../../scripts/modules/recording/forms.js";
import { Moments } from "../../../scripts/modules/recording/moments.js";
import { recordingOf } from "../../../scripts/modules/recording/recording.js";
import { samplingOf } from "../../../scripts/modules/recording/sampling.js";
import { sessionOf } from "../../../scripts/modules/recording/session.js";
import { plainPieces } from "../../../scripts/modules/text.js";
import { inWholeLines, piecesOf } from "./pieces.js";

/** @typedef {import("../../../scripts/modules/recording/doubts.js").Warning} Warning */
/** @typedef {import("./forms.js").Kind} Kind */

/**
 * A file that has bits, and how they are read.
 *
 * @typedef {object} BitsSource
 * @property {Part} file
 * @property {"text"|"packed"|import("../../../scripts/modules/recording/forms.js").Form} form
 * @property {Kind} kind of a capture
 * @property {string[]} channels of a recording: clock and data of one line, or as recording-to-bits takes them
 * @property {boolean} rising whether bits are taken at rising edges of the clock
 * @property {number} [inverted] which lines' data is inverted: 1, 2, or 3 for both
 * @property {number} [rest] after how many bits without one of its own a line is brought to rest
 * @property {Engine|null} engine
 * @property {undefined} [end] which its bits tell
 */

/**
 * A listing, the decoder, which it does not need, and the recording's end in bits where a report says so.
 * @typedef {{ file: Part, form: "listing", engine: Engine|null, end?: number }} ListingSource
 */

/** @typedef {ListingSource|BitsSource} Source what is to be read, and how */
/** @typedef {BitsSource & { form: import("../../../scripts/modules/recording/forms.js").Form }} RecordingSource */

/** @typedef {import("../../../scripts/modules/dictionary/dictionary.js").Entry[]|null} Entries of a dictionary */
/** @typedef {Source & { entries: Entries }} Job with the entries of the dictionary, if there is one */

/** @typedef {(read: number, size: number) => void} Heard */
/** @typedef {(share: number) => void} Share of what is done */
/** @typedef {KeptMarks} Bits */
/** @typedef {import("../../../scripts/modules/listing/listing.js").Listing} Listing */
/** @typedef {import("../engine/library.js").Engine} Engine */
/** @typedef {import("../engine/library.js").Library} Library */
/** @typedef {import("../../../scripts/modules/octets.js").Part} Part */

/**
 * What was read.
 *
 * @typedef {object} Read
 * @property {Listing} listing
 * @property {Bits|null} bits
 * @property {((entries: Entries, heard: Share) => Listing)|null} again lists the bits by another dictionary, where all
 *   were kept
 * @property {string|null} fault at which reading stopped
 * @property {string[]} notes on a recording, its warnings among them
 * @property {Warning[]} warnings
 * @property {number|null} [recorded] seconds of a recording, where they are known
 */

/** Forms that have lines, so that the end of a file that was cut off is known. */
const IN_LINES = new Set(["vcd", "csv", "listing"]);

const CUT = { sort: "cut", name: "", count: 1, second: null, text: "the file ends within a line" };

/**
 * Reads a file to its end, or to its first fault. Where the fault is that the file ends within a line, all before that
 * is read.
 * @param {Job} job
 * @param {Heard} heard
 * @returns {Promise<Read>}
 */
export async function read(job, heard) {
  let [first, refused] = /** @type {[Read|null, Fault|null]} */ ([null, null]);
  try {
    first = await readOnce(job, heard);
    if (first.fault === null) return first;
  } catch (fault) {
    if (!(fault instanceof Fault)) throw fault;
    refused = fault;
  }
  // A file that changed cannot be read again.
  const whole = IN_LINES.has(job.form) ? await inWholeLines(job.file).catch(() => job.file) : job.file;
  if (whole.size < job.file.size) {
    const again = await readOnce({ ...job, file: whole }, heard);
    if (again.fault === null) return { ...again, warnings: [CUT, ...again.warnings] };
  }
  if (refused !== null) throw refused;
  return /** @type {Read} */ (first);
}

/**
 * What takes the marks of a capture, or bits that arrived in memory, keeps and decodes them; and what decodes them again.
 *
 * @typedef {object} Road
 * @property {KeptMarks} bits
 * @property {Decoder|ClockedDecoder} decoder
 * @property {Packer} packer
 * @property {ConstructorParameters<typeof Sampler>[4]} goal
 * @property {(library: Library, entries: Entries, heard: Share) => Decoder|ClockedDecoder} again
 */

/**
 * @param {Kind} kind
 * @param {Library} library
 * @param {Entries} entries
 * @param {number} [rest]
 * @returns {Road}
 */
function roadOf(kind, library, entries, rest) {
  const bits = new KeptMarks(kind);
  if (kind === "arrivals") {
    const decoder = new ClockedDecoder(library, entries, rest);
    const keep = (/** @type {Uint8Array} */ octets) => bits.keep(octets);
    const goal = { arrivals: decoder.places.arrived, take: (/** @type {number} */ count) => decoder.rest(count, keep) };
    const packer = new Packer(kind, (octets, marks) => decoder.arrive(octets, marks, keep));
    /** @type {Road["again"]} */
    const again = (other, some, heard) => bits.replay(new ClockedDecoder(other, some), heard);
    return { bits, decoder, packer, goal, again };
  }
  const decoder = new Decoder(library, kind, entries);
  const packer = new Packer(kind, (octets, marks) => {
    bits.take(octets, marks);
    decoder.take(octets, marks);
  });
  /** @param {number} count @param {Uint8Array} octets */
  const take = (count, octets) => {
    for (let at = 0; at < count; at++) packer.add(octets[ARRIVAL.size * at + ARRIVAL.bit]);
  };
  /** @type {Road["again"]} */
  const again = (other, some, heard) => bits.replay(new Decoder(other, kind, some), heard);
  return { bits, decoder, packer, goal: { arrivals: null, take }, again };
}

/**
 * Reads a file to its end, or to its first fault.
 * @param {Job} job
 * @param {Heard} heard
 * @returns {Promise<Read>}
 */
async function readOnce(job, heard) {
  if (job.form === "listing") return readListing(job, heard);
  if (!job.engine) throw new Fault("this browser cannot decode captures: it runs no WebAssembly");
  const { engine } = job;
  const kind = kindOf(job);
  const library = libraryOf(engine);
  const road = roadOf(kind, library, job.entries, job.rest);
  const { bits, decoder, again } = road;
  /** @type {Pick<Read, "notes"|"warnings"|"recorded"|"fault">} */
  const told = { notes: [], warnings: [], recorded: null, fault: null };
  try {
    if (isRecording(job.form)) await takeRecording(/** @type {RecordingSource} */ (job), library, road, told, heard);
    else await takeCapture(job, kind, road, heard);
    bits.end();
  } catch (fault) {
    if (!(fault instanceof Fault)) throw fault;
    bits.end();
    told.fault = fault.message;
  }
  const listed = (/** @type {Decoder|ClockedDecoder} */ by) => (told.fault === null ? by.end() : by.listing);
  /** @type {NonNullable<Read["again"]>} */
  const listAgain = (entries, heard) => listed(again(libraryOf(engine), entries, heard));
  return { listing: listed(decoder), bits, again: bits.isWhole ? listAgain : null, ...told };
}

/**
 * The kind of the capture that a file is, or that is taken from it.
 * @param {BitsSource} job
 */
function kindOf(job) {
  if (!isRecording(job.form)) return job.kind;
  return job.channels.length === 2 ? 1 : "arrivals";
}

/** @param {ListingSource} job @param {Heard} heard @returns {Promise<Read>} */
async function readListing(job, heard) {
  const reader = new ListingReader();
  for await (const piece of plainPieces(piecesOf(job.file, heard))) reader.take(piece);
  return { listing: reader.end(), bits: null, again: null, fault: null, notes: [], warnings: [] };
}

/**
 * Takes the marks of a capture; those before a fault are taken, too.
 * @param {BitsSource} job
 * @param {Kind} kind
 * @param {Road} road
 * @param {Heard} heard
 */
async function takeCapture({ file, form }, kind, { packer }, heard) {
  const Reader = form === "packed" ? PackedReader : TextReader;
  const reader = new Reader(FORMS[kind], (octets, marks) => packer.addOctets(octets, octets.length * marks));
  const pieces = piecesOf(file, heard);
  try {
    for await (const piece of form === "text" ? plainPieces(pieces) : pieces) ofCapture(() => reader.take(piece));
    ofCapture(() => reader.end());
  } finally {
    packer.flush();
  }
}

/** @param {() => void} step whose faults are those of a capture */
function ofCapture(step) {
  try {
    step();
  } catch (fault) {
    throw fault instanceof Fault ? new Fault(`capture: ${fault.message}`) : fault;
  }
}

/** Wires of clocks and of the data of either line, as the sampler has them. */
const [CLOCKS, FIRST, SECOND] = [0b0101, 0b0010, 0b1000];

/**
 * Takes the bits of a recording; those before a fault are taken, too.
 * @param {RecordingSource} source
 * @param {Library} library
 * @param {Road} road
 * @param {Pick<Read, "notes"|"warnings"|"recorded">} told
 * @param {Heard} heard
 */
async function takeRecording(source, library, { packer, goal }, told, heard) {
  const { file, form, channels, rising, inverted = 0, rest } = source;
  const samples = form === "session" ? await sessionOf(file) : undefined;
  const pieces = samples ? samples.pieces(heard) : piecesOf(file, heard);
  const recording = await recordingOf(pieces, { form, channels, samples });
  const turned = (rising ? 0 : CLOCKS) | (inverted & 1 ? FIRST : 0) | (inverted & 2 ? SECOND : 0);
  const sampler = new Sampler(library, recording, samplingOf(recording, rest), turned, goal);
  try {
    for await (const piece of recording.pieces) sampler.take(piece);
  } finally {
    packer.flush();
    const when = new Moments(recording.ticks, recording.begin());
    const how = { rising, when, isSampled: !recording.hasRuns, seams: recording.seams() };
    told.warnings.push(...doubtsOf(sampler.facts, recording.names, how));
    const texts = told.warnings.map(({ text }) => `warning: ${text}`);
    told.notes.push(edgesOf(sampler.facts, recording.names), ...texts);
    told.recorded = recording.ticks && sampler.facts.samples / recording.ticks;
  }
}
