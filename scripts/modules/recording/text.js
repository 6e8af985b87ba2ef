/** The texts of recordings, which are UTF-8. */

const decoder = new TextDecoder("utf-8", { ignoreBOM: true });

const decoderWithoutMark = new TextDecoder("utf-8");

/**
 * The text of some octets, a replacement character for what is no UTF-8.
 * @param {Uint8Array} octets
 * @returns {string}
 */
export function decoded(octets) {
  return decoder.decode(octets);
}

/**
 * The same, without a byte order mark at the beginning.
 * @param {Uint8Array} octets
 * @returns {string}
 */
export function decodedWithoutMark(octets) {
  return decoderWithoutMark.decode(octets);
}

/**
 * A text with single spaces between its words, and none around it.
 * @param {string} text
 * @returns {string}
 */
export function withSingleSpaces(text) {
  return text.trim().split(/\s+/).join(" ");
}
