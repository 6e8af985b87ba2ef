import { readFileSync, readdirSync, statSync, statfsSync } from "node:fs";
import { join } from "node:path";
import { promisify } from "node:util";
import { gunzipSync, gzip } from "node:zlib";
import { DISK } from "./disk.js";
import { between, joined } from "./pieces.js";

/** The octets of a segment: a new one begins with the first piece after so many. Of pairs they are 54.6 seconds. */
export const SEGMENT = 1 << 21;

const zipped = promisify(gzip);

/** The names of segments, also of one that is compressed. */
const NAME = /^\d{6,}-\d{18}(\.gz)?$/;

/** @param {number} number @param {number} digits */
const padded = (number, digits) => String(number).padStart(digits, "0");

/**
 * What a segment is, by its name: the run, and the place where it begins.
 * @param {string} name
 */
function segmentOf(name) {
  const [run, place] = name.split(".")[0].split("-").map(Number);
  return { name, run, place };
}

/**
 * What segments a folder has; one that is compressed is there once.
 * @param {string} folder
 */
function namesIn(folder) {
  const names = readdirSync(folder).filter((name) => NAME.test(name)).sort();
  return names.filter((name) => !names.includes(`${name}.gz`));
}

/**
 * How much room is left on the disk of a folder, in octets.
 * @param {string} folder
 */
export function roomIn(folder) {
  const { bavail, bsize } = statfsSync(folder);
  return bavail * bsize;
}

/** @typedef {{ name: string, size: number }} Segment a file, and its octets */
/** @typedef {import("./pieces.js").Hole} Hole */

/** The last bits, packed, in segments on disk of which the oldest go first; those that are full are compressed. */
export class Ring {
  /** @type {Segment[]} */
  segments = [];
  /** @type {number|null} */
  file = null;
  failed = 0; // octets that the disk did not take
  past = 0; // the place after what was to be kept
  /** @type {number|null} */
  hole = null; // the place from which on the disk takes nothing
  packing = Promise.resolve();
  segment = SEGMENT;

  /**
   * @param {string} folder
   * @param {number} run
   * @param {{ most: number, floor: number, warn: (text: string) => void, missed?: (hole: Hole) => void,
   *   disk?: import("./disk.js").Disk }} limits octets of the ring, and those that are to be left on the disk; and what
   *   hears of a hole that is over
   */
  constructor(folder, run, { most, floor, warn, missed = () => undefined, disk = DISK }) {
    this.folder = folder;
    this.run = run;
    this.most = most;
    this.floor = floor;
    this.warn = warn;
    this.missed = missed;
    this.disk = disk;
    disk.makeFolder(folder);
    const kept = namesIn(folder);
    const isLeft = (/** @type {string} */ name) => name.endsWith(".new") || NAME.test(name) && !kept.includes(name);
    readdirSync(folder).filter(isLeft).forEach((name) => disk.remove(join(folder, name)));
    this.segments = kept.map((name) => ({ name, size: statSync(join(folder, name)).size }));
  }

  /** The number of the last run that it has bits of, or 0. */
  get lastRun() {
    return this.segments.reduce((last, { name }) => Math.max(last, segmentOf(name).run), 0);
  }

  /** @param {string} name */
  path(name) {
    return join(this.folder, name);
  }

  get size() {
    return this.segments.reduce((sum, { size }) => sum + size, 0);
  }

  /**
   * Adds octets.
   * @param {Uint8Array} octets
   * @param {number} place at which the first one begins
   * @param {number} past the place after them
   */
  add(octets, place, past) {
    this.past = past;
    try {
      if (this.file === null || this.segments[this.segments.length - 1].size >= this.segment) this.turn(place);
      if (this.file === null) throw new Error("less is free on the disk than is to be left");
      this.write(octets);
      this.goOn(place);
    } catch (fault) {
      this.failed += octets.length;
      this.hole ??= place;
      this.close();
      this.warn(`the ring: ${/** @type {Error} */ (fault).message}`);
    }
  }

  /** @param {Uint8Array} octets */
  write(octets) {
    const last = this.segments[this.segments.length - 1];
    this.disk.writeAll(/** @type {number} */ (this.file), octets, (count) => (last.size += count));
  }

  /**
   * Tells a hole that ends at a place.
   * @param {number} place
   */
  goOn(place) {
    if (this.hole !== null) this.missed({ first: this.hole, past: place });
    this.hole = null;
  }

  /**
   * Does something with the disk in its turn.
   * @param {() => Promise<void>|void} act
   */
  later(act) {
    this.disk.later(act, (fault) => this.warn(`the ring: ${fault.message}`));
  }

  /** Flushes what was added. */
  sync() {
    const { file } = this;
    if (file !== null) this.later(() => this.disk.sync(file));
  }

  close() {
    const { file } = this;
    if (file === null) return;
    this.sync();
    this.later(() => this.disk.close(file));
    this.file = null;
  }

  /**
   * Begins a segment, and has the one before it compressed.
   * @param {number} place
   */
  turn(place) {
    const isFull = this.file !== null;
    this.close();
    const last = this.segments.at(-1);
    if (isFull && last) this.packing = this.packing.then(() => this.pack(last));
    this.prune();
    if (roomIn(this.folder) < this.floor) return;
    const name = `${padded(this.run, 6)}-${padded(place, 18)}`;
    this.file = this.disk.open(this.path(name), "w");
    this.segments.push({ name, size: 0 });
    this.later(() => this.disk.syncFolder(this.folder));
  }

  /** Makes room for a segment. */
  prune() {
    let { size } = this;
    const isTooMuch = () => size + this.segment > this.most || roomIn(this.folder) < this.floor + this.segment;
    while (this.segments.length > 1 && isTooMuch()) {
      const [oldest] = this.segments.splice(0, 1);
      size -= oldest.size;
      this.disk.remove(this.path(oldest.name));
    }
  }

  /**
   * Compresses a segment; one that cannot be stays as it is.
   * @param {Segment} segment
   */
  async pack(segment) {
    const [from, to] = [this.path(segment.name), this.path(`${segment.name}.gz`)];
    try {
      const packed = await zipped(readFileSync(from), { level: 1 });
      if (this.segments.includes(segment)) await this.disk.put(to, packed);
      this.disk.remove(this.segments.includes(segment) ? from : to);
      Object.assign(segment, { name: `${segment.name}.gz`, size: packed.length });
    } catch {
      this.disk.remove(`${to}.new`);
    }
  }

  /**
   * Where the last segments of a run begin.
   * @param {number} run
   * @param {number} most how many of them
   */
  beginOf(run, most) {
    const own = this.segments.map(({ name }) => segmentOf(name)).filter((segment) => segment.run === run);
    return own.slice(-most)[0]?.place ?? 0;
  }

  /**
   * The bits of a run's places that are still there, in pieces without a hole.
   * @param {import("./forms.js").Form} form
   * @param {number} run
   * @param {number} first
   * @param {number} past
   */
  read(form, run, first, past) {
    const own = this.segments.map(({ name }) => segmentOf(name)).filter((segment) => segment.run === run);
    /** @param {unknown} _ @param {number} at */
    const isWanted = (_, at) => own[at].place < past && (own[at + 1]?.place ?? Infinity) > first;
    const wanted = own.filter(isWanted).map(({ name, place }) => ({ octets: this.octetsOf(name), place }));
    const pieces = joined(form, wanted).map((piece) => between(form, piece, first, past));
    return pieces.filter(({ octets }) => octets.length > 0);
  }

  /**
   * The octets of a segment, of which there are none where it cannot be read.
   * @param {string} name
   */
  octetsOf(name) {
    try {
      const octets = readFileSync(this.path(name));
      return name.endsWith(".gz") ? gunzipSync(octets) : octets;
    } catch (fault) {
      this.warn(`the ring: ${name}: ${/** @type {Error} */ (fault).message}`);
      return Buffer.alloc(0);
    }
  }
}
