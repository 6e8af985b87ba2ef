import { Fault } from "../fault.js";
import { Moments } from "./moments.js";
import { PIECE } from "./source.js";
import { hertz } from "./units.js";
import { inflated, membersOf, piecesOfMember } from "./zip.js";

/** @typedef {import("../octets.js").Part} Part */

/** @typedef {import("./zip.js").Member} Member */

/** The file of an archive that says what the recording is, and its section of the logic analyser. */
const METADATA = "metadata";
const DEVICE = "device 1";

/**
 * Hears how many octets of the samples were read, and how many there are.
 * @typedef {(read: number, size: number) => void} Heard
 */

/**
 * A session of sigrok, which PulseView saves: an archive with the samples, and what they are.
 * @typedef {object} Session
 * @property {string[]} names of the channels
 * @property {number} width octets of a sample
 * @property {number} ticks samples a second
 * @property {import("./seams.js").Seam[]} faults of the parts that were read
 * @property {(heard: Heard) => AsyncGenerator<Uint8Array>} pieces
 */

/**
 * @param {Part} blob
 * @param {typeof inflated} [inflate] what unpacks
 * @returns {Promise<Session>}
 */
export async function sessionOf(blob, inflate = inflated) {
  const members = await membersOf(blob);
  const metadata = members.find(({ name }) => name === METADATA);
  if (!metadata) throw new Fault("the archive is no session of PulseView: it has no metadata");
  const device = sectionOf(await textOf(blob, metadata, inflate), DEVICE);
  const ofProbes = [...device].filter(([key]) => /^probe\d+$/.test(key));
  /** @type {[number, string][]} */
  const probes = ofProbes.map(([key, name]) => [Number(key.slice("probe".length)) - 1, name]);
  const [width, prefix, rate] = ["unitsize", "capturefile", "samplerate"].map((key) => device.get(key));
  if (probes.length === 0 || !(Number.isInteger(Number(width)) && Number(width) > 0) || !prefix || !rate) {
    throw new Fault("the session has no logic channels: it lacks their names, their width or their sample rate");
  }
  const names = Array.from({ length: Math.max(...probes.map(([at]) => at)) + 1 }, (_, at) => `(${at})`);
  for (const [at, name] of probes) names[at] = name;
  const parts = new Parts(blob, membersOfSamples(members, prefix), { width: Number(width), ticks: hertz(rate) });
  const pieces = (/** @type {Heard} */ heard) => parts.pieces(heard, inflate);
  return { names, width: Number(width), ticks: hertz(rate), faults: parts.faults, pieces };
}

/** @param {Part} blob @param {Member} member @param {typeof inflated} inflate */
async function textOf(blob, member, inflate) {
  const decoder = new TextDecoder();
  let text = "";
  const pieces = piecesOfMember(blob, member, PIECE, inflate);
  for (let next = await pieces.next(); ; next = await pieces.next()) {
    if (next.done && !next.value) throw new Fault(`${member.name} in the archive is damaged: its checksum is wrong`);
    if (next.done) return text;
    text += decoder.decode(next.value, { stream: true });
  }
}

/**
 * The keys of a section of an INI file, with their values.
 * @param {string} text
 * @param {string} wanted
 */
function sectionOf(text, wanted) {
  /** @type {Map<string, string>} */
  const found = new Map();
  let section = "";
  for (const line of text.split(/\r?\n/)) {
    const [, name] = /^\[(.*)\]\s*$/.exec(line) ?? [];
    section = name ?? section;
    const [, key, value] = /^([^=:#;]+?)\s*[=:]\s*(.*?)\s*$/.exec(line) ?? [];
    if (section === wanted && key !== undefined) found.set(key.toLowerCase(), value);
  }
  return found;
}

/**
 * The number of a file with samples: 0 of one with this name alone, else that behind it; -1 of other files.
 * @param {string} name
 * @param {string} prefix
 */
function numberOf(name, prefix) {
  const rest = name.startsWith(prefix) ? name.slice(prefix.length) : "?";
  return rest === "" ? 0 : Number(/^-(\d+)$/.exec(rest)?.[1] ?? -1);
}

/**
 * The files with the samples: one of this name, or several with numbers from 1 on.
 * @param {Member[]} members
 * @param {string} prefix
 */
function membersOfSamples(members, prefix) {
  const numbered = members.map((member) => ({ number: numberOf(member.name, prefix), member, prefix }));
  return numbered.filter(({ number }) => number >= 0).sort((one, other) => one.number - other.number);
}

/** @typedef {ReturnType<typeof membersOfSamples>[0]} Numbered */

/** The files with the samples of a session, and what is wrong with those that were read. */
class Parts {
  /** @type {import("./seams.js").Seam[]} */
  faults = [];
  octets = 0; // that were read

  /** @param {Part} blob @param {Numbered[]} parts @param {{ width: number, ticks: number }} samples */
  constructor(blob, parts, { width, ticks }) {
    this.blob = blob;
    this.parts = parts;
    this.width = width;
    this.when = new Moments(ticks);
  }

  get samples() {
    return Math.floor(this.octets / this.width);
  }

  /** @param {Heard} heard @param {typeof inflated} inflate */
  async *pieces(heard, inflate) {
    const size = this.parts.reduce((sum, { member }) => sum + member.size, 0);
    let due = Math.min(1, this.parts[0]?.number ?? 0);
    for (const { number, member, prefix } of this.parts) {
      if (number > due) this.lack(due, number - 1, prefix);
      due = number + 1;
      yield* this.piecesOf(member, (read) => heard(read, size), inflate);
    }
  }

  /** @param {Member} member @param {(read: number) => void} heard @param {typeof inflated} inflate */
  async *piecesOf(member, heard, inflate) {
    const begin = this.samples;
    const pieces = piecesOfMember(this.blob, member, PIECE, inflate);
    try {
      for (let next = await pieces.next(); ; next = await pieces.next()) {
        if (next.done && !next.value) this.doubt("checksum", member.name, begin);
        if (next.done) return;
        yield next.value;
        this.octets += next.value.length;
        heard(this.octets);
      }
    } catch (fault) {
      if (!(fault instanceof Fault)) throw fault;
      throw new Fault(`${fault.message} (at ${this.when.of(this.samples)})`);
    }
  }

  /** @param {number} first number that is lacking @param {number} last @param {string} prefix */
  lack(first, last, prefix) {
    const name = first === last ? `${prefix}-${first}` : `${prefix}-${first} to ${prefix}-${last}`;
    this.doubt("piece", name, this.samples);
  }

  /** @param {"piece"|"checksum"} sort @param {string} name @param {number} from */
  doubt(sort, name, from) {
    this.faults.push({ sort, name, from, count: 1, stretches: [{ first: from, past: this.samples }] });
  }
}
