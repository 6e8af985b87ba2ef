import { BAD_VERDICTS, DAMAGE } from "../listing/kinds.js";

/** @typedef {import("../listing/listing.js").Row} Row */

/** The octets of the frame check, which such packets do not have. */
const CHECK = 2;

/** What is said of a command or a frame; that a command was answered in time needs no comment. */
const SAID = [...BAD_VERDICTS, "pending", "stray"];

/** A verdict comes at once after the report that settles it, which may be a frame: it is about one of the last two. */
const OPEN_PACKETS = 2;

/**
 * A frame, and what is said of it.
 * @typedef {{ row: Row, octets: Buffer, remarks: string[] }} Packet
 */

/**
 * The line of the listing.
 * @param {Row} row
 */
const damageText = ({ line, first, past, kind, cause }) =>
  `${line === null ? "" : `${line} `}${first} ${past} ${kind}${cause && ` ${cause}`}`;

/** @param {Row} row */
const saidText = ({ kind, replyBits }) => (replyBits === null ? kind : `${kind}, answer after ${replyBits} bits`);

/**
 * Puts what a line says to the packet that it is about.
 * @param {Row} row
 * @param {Packet[]} packets
 * @param {string[]} early
 */
function remark(row, packets, early) {
  if (DAMAGE.includes(row.kind)) {
    const last = packets.at(-1);
    if (last) last.remarks.push(`then ${damageText(row)}`);
    else early.push(`after ${damageText(row)}`);
  } else if (SAID.includes(row.kind)) {
    const { line, first, past } = row;
    const isOwn = (/** @type {Packet} */ { row: its }) => its.line === line && its.first === first && its.past === past;
    const own = packets.filter(isOwn);
    own.forEach(({ remarks }) => remarks.push(saidText(row)));
  }
}

/** The frames of a listing, each once nothing more can be said of it. */
export class Packets {
  /** @type {Packet[]} */
  open = [];
  /** @type {string[]} */
  early = [];

  /**
   * Takes rows of the listing.
   * @param {Iterable<Row>} rows
   * @returns {Generator<Packet>} those that are ready
   */
  *take(rows) {
    for (const row of rows) {
      if (row.octets === null) {
        remark(row, this.open, this.early);
        continue;
      }
      this.open.push({ row, octets: Buffer.from(row.octets.subarray(0, -CHECK)), remarks: this.early });
      this.early = [];
      if (this.open.length > OPEN_PACKETS) yield* this.open.splice(0, 1);
    }
  }

  /**
   * Those of which nothing more comes.
   * @returns {Packet[]}
   */
  rest() {
    return this.open.splice(0);
  }
}
