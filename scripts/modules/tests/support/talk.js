// A talk of two stations with two faults, as port1 lists it, and the incidents that these are.

import { ListingReader } from "../../listing/read.js";
import { RATE } from "../../port1.js";

export const [ROUND, SECONDS] = [6144, 40];

/** @typedef {[kind: "silent"|"unasked"|"rest"|"burst", from: number, past: number][]} Faults in seconds */

/**
 * The lines of a talk, each with the place at which it is decided. Station 2 may be `silent`, station 1 `unasked`, the
 * bus at `rest`, and damage come in a `burst`.
 * @param {number} seconds
 * @param {Faults} faults
 */
export function talkOf(seconds, faults) {
  const lines = [];
  const put = (text, at) => lines.push({ text, at });
  const has = (kind, place) => faults.some(([own, from, past]) => own === kind && from * RATE <= place && place < past * RATE);
  for (let place = 0; place < seconds * RATE; place += ROUND) {
    const pieces = has("burst", place) ? [500, 900, 1300] : [];
    pieces.forEach((at) => put(`1 ${place + at} ${place + at + 90} damaged short`, place + at + 91));
    for (const [at, station] of [[100, 1], [3000, 2]]) {
      const [first, past] = [place + at, place + at + 56];
      if (has("rest", first) || (station === 1 && has("unasked", first))) continue;
      const isSilent = station === 2 && has("silent", first);
      put(`1 ${first} ${past} frame 0${station}83010000 station ${station} type 1 poll`, past + 1);
      if (isSilent) put(`1 ${first} ${past} missing station ${station} type 1`, past + 8000);
      else put(`2 ${past + 200} ${past + 256} frame 0${station}83810000 station ${station} type 129 state`, past + 257);
      if (!isSilent) put(`1 ${first} ${past} answered station ${station} type 1`, past + 257);
    }
  }
  return lines.sort((one, other) => one.at - other.at);
}

/** When station 2 is silent, and when station 1 is not asked. */
const [SILENT, UNASKED] = [[4, 5], [24, 27]];

export const LINES = talkOf(SECONDS, [["silent", 4, 5], ["unasked", 24, 27]]).map(({ text }) => text);

/** A command of a kind after a second. */
const placeAfter = (second, at) => Math.ceil((second * RATE - at) / ROUND) * ROUND + at;

export const WANTED = [["missing 2/1", placeAfter(SILENT[0], 3000)], ["gap 1/1", placeAfter(UNASKED[0], 100) - ROUND]];

/** Where they are well again. */
export const ENDED = [placeAfter(SILENT[1], 3000), placeAfter(UNASKED[1], 100)];

export function rowsOf(lines) {
  const reader = new ListingReader();
  reader.take(Buffer.from(lines.map((line) => `${line}\n`).join("")));
  return [...reader.newRows()];
}
