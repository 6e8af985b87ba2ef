import { AROUND, CONTROL } from "../port1.js";

/** What a decoder reports, in the order of the numbers of the C library, which begin at 1. */
const REPORTS = /** @type {const} */ (["frame", "damaged", "overlong", "abort", "idle"]);

/** What becomes of a command that waits for its answer, in the same way. */
export const VERDICTS = /** @type {const} */ (["answered", "late", "missing", "spoilt"]);

/** What a line of a listing is about. The numbers are places in this list. */
export const KINDS = /** @type {const} */ ([...REPORTS, ...VERDICTS, "stray", "open", "pending"]);

/** @typedef {typeof VERDICTS[number]} Verdict */
/** @typedef {typeof KINDS[number]} LineKind */

const NUMBERS = Object.fromEntries(KINDS.map((kind, number) => [kind.toUpperCase(), number]));

export const { FRAME, DAMAGED, IDLE, ANSWERED, LATE, MISSING, SPOILT, STRAY, OPEN, PENDING } =
  /** @type {Record<Uppercase<LineKind>, number>} */ (NUMBERS);

/** Counts of verdicts, all 0. */
export const noVerdicts = () =>
  /** @type {Record<Verdict, number>} */ (Object.fromEntries(VERDICTS.map((verdict) => [verdict, 0])));

/** Why a piece is damaged, by the numbers of the C library; the first is no cause. */
export const CAUSES = ["", "unstuffed", "short", "unaligned", "fcs"];

/**
 * Pieces that are no good frame, and their numbers.
 * @type {readonly LineKind[]}
 */
export const DAMAGE = REPORTS.filter((kind) => kind !== "frame" && kind !== "idle");
export const DAMAGES = DAMAGE.map((kind) => KINDS.indexOf(kind));

/**
 * The verdicts on commands that were not answered in time.
 * @type {readonly LineKind[]}
 */
export const BAD_VERDICTS = VERDICTS.filter((verdict) => verdict !== "answered");

/**
 * Whether the name of a frame says that the dictionary does not fit it: it lacks the type, or has it with another
 * length.
 * @param {string} name
 */
export const isUnfit = (name) => name === "unknown" || name === "length";

/**
 * The type of a frame that has some of these octets, its check among them, or -1.
 * @param {Uint8Array} octets
 * @param {number} from
 * @param {number} count
 */
export function typeOf(octets, from, count) {
  return count >= AROUND && octets[from + 1] === CONTROL ? octets[from + 2] : -1;
}
