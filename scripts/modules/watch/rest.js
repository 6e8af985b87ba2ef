import { spawn } from "node:child_process";
import { RATE } from "../port1.js";
import { rowsOfInput } from "../system/input.js";
import { wordsOfList } from "./decoder.js";
import { captureOf } from "./forms.js";
import { Incidents } from "./incidents.js";
import { SURE, Triggers } from "./triggers.js";
import { zeroAt } from "./wall.js";

/** @typedef {import("../listing/listing.js").Row} Row */
/** @typedef {import("./journal.js").JournalEntry} JournalEntry */

/**
 * How far before the last line that was judged bits are read again, so that it is found; and how far before a line all
 * is judged: any answer takes less.
 */
const [BEFORE, SLACK] = [2 * RATE, RATE];

/** How often it is judged what time alone decides, in places. */
const STEP = RATE / 4;

/** The most segments of a ring that are read again. */
const MOST = 8;

/**
 * What tells an event from the others of a log.
 * @param {JournalEntry} record
 */
const keyOf = ({ event, run, place, id, kind, line, cause }) =>
  JSON.stringify([event, run, place, id, kind, line, cause]);

/**
 * The lines of a packed capture.
 * @param {string} program
 * @param {string[]} words
 * @param {Buffer} capture
 */
export async function* linesOf(program, words, capture) {
  const child = spawn(program, words, { stdio: ["pipe", "pipe", "ignore"], detached: true });
  child.on("error", () => undefined); // it writes nothing then
  child.stdin.on("error", () => undefined);
  child.stdin.end(capture);
  for await (const rows of rowsOfInput(child.stdout)) yield* rows;
}

/**
 * Leaves out the lines up to one.
 * @param {AsyncIterable<Row>} rows
 * @param {import("./triggers.js").Mark|null} last
 */
async function* linesAfter(rows, last) {
  let isAfter = last === null;
  for await (const row of rows) {
    if (isAfter) yield row;
    else isAfter = isLast(row, /** @type {import("./triggers.js").Mark} */ (last));
  }
}

/** @param {Row} row @param {import("./triggers.js").Mark} last */
const isLast = (row, last) =>
  row.first > last.past + SLACK || (row.past === last.past && row.line === last.line && row.kind === last.kind);

/**
 * Judges what a run had taken, and not judged when it was killed: from the bits that the ring has of it.
 * @param {import("./memory.js").Kept} old
 * @param {import("./ring.js").Ring} ring
 * @param {import("./limits.js").Asked} asked
 * @param {import("./journal.js").Journal} journal
 */
export async function judgedRest(old, ring, asked, journal) {
  const { run, triggers: known, incidents: before } = old;
  const zero = (/** @type {number} */ place) => zeroAt(old, place);
  const entries = journal.told();
  const told = new Set(entries.map(keyOf));
  const begun = new Map(entries.filter(({ event }) => event === "begun").map((entry) => [entry.id, entry]));
  const log = (/** @type {JournalEntry} */ record) => (told.has(keyOf(record)) ? undefined : journal.log(record));
  /** @type {NonNullable<import("./incidents.js").Office["isTaken"]>} */
  const isTaken = (id, cause, first) => {
    const entry = begun.get(id);
    return entry !== undefined && (entry.cause !== cause || entry.place !== first);
  };
  const incidents = new Incidents(run, asked.limits, { zero, keep() {}, save() {}, log, isTaken });
  incidents.resume(before);
  if (before.open && !begun.has(before.open.id)) incidents.tellBegun(before.open);
  const triggers = new Triggers(incidents, asked.gaps);
  triggers.resume(known);
  const past = await judge(triggers, incidents, ring, asked);
  const { kinds } = triggers.kept((place) => zero(place) + place / RATE);
  return { kinds, incidents: incidents.kept(), tally: incidents.tally, past: zero(past) + past / RATE };
}

/**
 * @param {Triggers} triggers
 * @param {Incidents} incidents
 * @param {import("./ring.js").Ring} ring
 * @param {import("./limits.js").Asked} asked
 * @returns {Promise<number>} the place up to which there are bits
 */
async function judge(triggers, incidents, ring, asked) {
  const { judged } = triggers;
  const from = Math.max((judged?.past ?? 0) - BEFORE, ring.beginOf(incidents.run, MOST));
  let past = from;
  let last = judged;
  for (const piece of ring.read(asked.form, incidents.run, from, Infinity)) {
    if (piece.place > (last?.past ?? 0)) {
      incidents.seam(piece.place);
      triggers.seam(piece.place);
      last = null;
    }
    await judgePiece(triggers, incidents, piece, last, asked);
    [past, last] = [piece.past, null];
  }
  incidents.take(Infinity);
  return past;
}

/**
 * @param {Triggers} triggers
 * @param {Incidents} incidents
 * @param {import("./pieces.js").Piece} piece
 * @param {import("./triggers.js").Mark|null} judged the last line that was
 * @param {import("./limits.js").Asked} asked
 */
async function judgePiece(triggers, incidents, { octets, place, past }, judged, asked) {
  const { form, program, dictionary, lines = linesOf } = asked;
  let mark = 0;
  const tick = (/** @type {number} */ to) => {
    mark = to;
    triggers.tick(mark);
    incidents.tick(mark);
  };
  const rows = lines(program, wordsOfList(form, dictionary, place), captureOf(form, octets));
  for await (const row of linesAfter(rows, judged)) {
    if (row.first - SLACK > mark + STEP) tick(row.first - SLACK);
    triggers.hear([row]);
  }
  tick(past - SURE);
}
