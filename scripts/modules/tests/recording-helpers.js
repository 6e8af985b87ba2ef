import { Fault } from "../fault.js";
import { recordingOf } from "../recording/recording.js";

/** Octets of a run: the levels, and how long they stand. */
const RUN = 8;

const MARKS = ["01", "oi"];

/** The levels of a recording, sample by sample or run by run. @param {import("../recording/recording.js").Recording} recording */
async function* levelsOf({ hasRuns, width, wires, pieces }) {
  const size = hasRuns ? RUN : width;
  for await (const piece of pieces) {
    for (let at = 0; at < piece.length; at += size) {
      yield wires.map((wire) => (piece[at + (wire >> 3)] >> (wire & 7)) & 1);
    }
  }
}

/** The bits of levels, as the definition has them: the data before each edge of its clock, the first line's first. */
async function* bitsIn(levels, rising) {
  let before = null;
  for await (const level of levels) {
    for (let line = 0; before !== null && line < level.length / 2; line++) {
      const [was, is] = [before[2 * line], level[2 * line]];
      if (was !== is && is === Number(rising)) yield MARKS[line][before[2 * line + 1]];
    }
    before = level;
  }
}

/**
 * The bits of a recording, in the order of arrival, and the fault that ended it.
 * @param {Iterable<Uint8Array>|AsyncIterable<Uint8Array>} pieces
 * @param {import("../recording/recording.js").Wanted & { rising?: boolean }} wanted
 * @returns {Promise<{ bits: string, fault: string|null }>}
 */
export async function taken(pieces, { rising = true, ...wanted }) {
  let bits = "";
  try {
    const recording = await recordingOf(pieces, wanted);
    for await (const mark of bitsIn(levelsOf(recording), rising)) bits += mark;
  } catch (fault) {
    if (!(fault instanceof Fault)) throw fault;
    return { bits, fault: fault.message };
  }
  return { bits, fault: null };
}

/** Octets in pieces of one size. */
export function* inPieces(octets, size) {
  for (let begin = 0; begin < octets.length; begin += size) {
    yield octets.subarray(begin, begin + size);
  }
}
