import { spawn } from "node:child_process";
import { closeSync, fstatSync, openSync, rmSync, statSync } from "node:fs";
import { tmpdir } from "node:os";
import { join } from "node:path";
import { Fault } from "../fault.js";
import { HEAD } from "./forms.js";
import { endingOctets, octetsAt } from "./parts.js";

/** @typedef {import("./parts.js").Capture} Capture */
/** @typedef {import("./parts.js").Part} Part */
/** @typedef {(octets: Uint8Array) => void} Write */

/** Octets that are copied at a time. */
const PIECE = 1 << 20;

const SHORTER = "the file has become shorter";

/**
 * The octets of a file, in pieces.
 * @param {number} file
 * @param {number} first
 * @param {number} past
 */
function* piecesOf(file, first, past) {
  for (let at = first; at < past; ) {
    const piece = octetsAt(file, at, Math.min(PIECE, past - at));
    if (piece.length === 0) throw new Fault(SHORTER);
    yield piece;
    at += piece.length;
  }
}

/**
 * Ends a shell, and all that it runs.
 * @param {import("node:child_process").Child} child
 */
function kill({ pid }) {
  try {
    process.kill(-pid, "SIGKILL");
  } catch {
    // it has ended
  }
}

let numberOfFiles = 0;

/** A file without a name, which is gone when it is closed. */
function openNameless() {
  const path = join(tmpdir(), `list-in-parts-${process.pid}-${numberOfFiles++}`);
  const file = openSync(path, "wx+");
  rmSync(path, {});
  return file;
}

/** Lists parts, each by a process of its own, so many at a time. */
export class Engine {
  /** @type {Set<import("node:child_process").Child>} */
  running = new Set();
  /** @type {(() => void)[]} what waits for its turn */
  waiting = [];
  isStopped = false;

  /** @param {Capture} capture @param {number} jobs */
  constructor(capture, jobs) {
    this.capture = capture;
    this.free = jobs;
  }

  /**
   * The listing of a part, in an open file.
   * @param {Part} part
   */
  async list(part) {
    if (this.free === 0) await new Promise((turn) => this.waiting.push(() => turn(undefined)));
    else this.free -= 1;
    const listing = openNameless();
    try {
      if (this.isStopped) throw new Fault("stopped");
      if ((await this.run(part, listing)) === 0) return listing;
      const isShorter = statSync(this.capture.path).size < HEAD + part.past;
      throw new Fault(isShorter ? SHORTER : `octets ${part.first} to ${part.past}: not listed`);
    } catch (fault) {
      closeSync(listing);
      throw fault;
    } finally {
      const next = this.waiting.shift();
      if (next) next();
      else this.free += 1;
    }
  }

  /**
   * The status of a shell that lists a part.
   * @param {Part} part
   * @param {number} listing
   */
  async run(part, listing) {
    const how = { stdio: ["ignore", listing, "inherit"], detached: true };
    const child = spawn("sh", ["-c", this.capture.commandOf(part)], how);
    this.running.add(child);
    return new Promise((done, fail) => {
      child.on("error", fail);
      child.on("close", done);
    }).finally(() => this.running.delete(child));
  }

  /** Ends all that runs. */
  stop() {
    this.isStopped = true;
    this.running.forEach(kill);
  }
}

/**
 * Writes a listing without its seam, and without the lines of its end unless it is the last.
 * @param {number} listing
 * @param {{ name: string, seam: Buffer, lines: number, isLast: boolean }} part
 * @param {Write} write
 */
export function joinPart(listing, { name, seam, lines, isLast }, write) {
  const { size } = fstatSync(listing);
  const past = isLast ? size : size - endingOctets(listing, size, lines);
  if (!octetsAt(listing, 0, seam.length).equals(seam)) {
    throw new Fault(`${name}: it does not begin as the part before it ends`);
  }
  for (const piece of piecesOf(listing, seam.length, past)) write(piece);
}
