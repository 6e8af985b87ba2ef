import { FRAME } from "../../../scripts/modules/listing/kinds.js";

/** @typedef {import("../../../scripts/modules/listing/listing.js").Listing} Listing */

/** A line at rest is 1, and so most of its bits are. */
const LEAST_ONES = 0.5;

/**
 * How many frames a line has.
 * @param {Listing} listing
 * @param {number} line
 */
function framesOf({ kinds, lines, length }, line) {
  let frames = 0;
  for (let at = 0; at < length; at++) if (kinds[at] === FRAME && (lines[at] || 1) === line) frames += 1;
  return frames;
}

/**
 * Warnings of lines whose pair is exchanged: they are 0 most of the time, and have no frame.
 * @param {string[]} channels of the recording, as recording-to-bits takes them
 * @param {{ ones: number[], counts: number[] }} bits of each line: how many are 1, and how many there are
 * @param {Listing} listing
 * @returns {import("../../../scripts/modules/recording/doubts.js").Warning[]}
 */
export function warningsOfLevels(channels, { ones, counts }, listing) {
  const data = channels.length === 4 ? [channels[1], channels[3]] : channels.slice(1);
  return data.flatMap((name, at) => {
    const isInverted = ones[at] > 0 && ones[at] < LEAST_ONES * counts[at] && framesOf(listing, at + 1) === 0;
    const text = `${name} is 0 most of the time, and has no frame`;
    return isInverted ? [{ sort: "inverted", name, count: 1, second: null, line: at + 1, text }] : [];
  });
}
