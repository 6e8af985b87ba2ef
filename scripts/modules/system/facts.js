import { createHash } from "node:crypto";
import { closeSync, openSync, readSync } from "node:fs";

/** Octets of one read of a file. */
const PIECE = 1 << 20;

/** @param {number} number */
const twoDigits = (number) => String(number).padStart(2, "0");

/**
 * A date and time of day, here.
 * @param {Date} date
 */
export function dateOf(date) {
  const [month, day, hour, minute] = [date.getMonth() + 1, date.getDate(), date.getHours(), date.getMinutes()];
  return `${date.getFullYear()}-${twoDigits(month)}-${twoDigits(day)} ${twoDigits(hour)}:${twoDigits(minute)}`;
}

/**
 * Calls with the pieces of a file, which stand until the next one.
 * @param {string} path
 */
export function* piecesOf(path, size = PIECE) {
  const [file, piece] = [openSync(path, "r"), new Uint8Array(size)];
  try {
    for (let count = readSync(file, piece); count > 0; count = readSync(file, piece)) yield piece.subarray(0, count);
  } finally {
    closeSync(file);
  }
}

/**
 * The SHA-256 of a file.
 * @param {string} path
 */
export function sha256Of(path) {
  const digest = createHash("sha256");
  for (const piece of piecesOf(path)) digest.update(piece);
  return digest.digest("hex");
}
