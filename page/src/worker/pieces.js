import { octetsOf } from "../../../scripts/modules/octets.js";

const PIECE = 1 << 22;

/**
 * A file piece by piece, with word of how much was read.
 * @param {import("../../../scripts/modules/octets.js").Part} file
 * @param {import("./source.js").Heard} heard
 */
export async function* piecesOf(file, heard) {
  for (let from = 0; from < file.size || from === 0; from += PIECE) {
    yield await octetsOf(file.slice(from, from + PIECE));
    heard(Math.min(file.size, from + PIECE), file.size);
  }
}

/**
 * A file without what stands after its last line end; the file itself where nothing does.
 * @param {import("../../../scripts/modules/octets.js").Part} file
 */
export async function inWholeLines(file) {
  const from = Math.max(0, file.size - PIECE);
  const past = (await octetsOf(file.slice(from))).lastIndexOf(10) + 1;
  return past === 0 ? file : file.slice(0, from + past);
}
