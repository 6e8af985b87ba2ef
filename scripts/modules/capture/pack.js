import { headOf } from "./forms.js";
import { TextReader } from "./text.js";

/** @typedef {import("./forms.js").Form} Form */

/**
 * Packs the marks of a text.
 * @param {Form} form
 * @param {AsyncIterable<Uint8Array>} pieces
 * @returns {Promise<Uint8Array[]>} the capture: what stands before its octets is how many there are
 */
export async function packed(form, pieces) {
  /** @type {Uint8Array[]} */
  const full = [];
  let count = 0;
  const reader = new TextReader(form, (octets, marks) => {
    full.push(octets);
    count += octets.length * marks;
  });
  for await (const piece of pieces) reader.take(piece);
  reader.end();
  return [headOf(form, count), ...full];
}
