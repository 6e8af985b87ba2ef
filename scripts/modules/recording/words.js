/** The words of a value change dump, which spaces and line ends separate. */

const IS_SPACE = new Uint8Array(256);
IS_SPACE.fill(1, 9, 14);
IS_SPACE[32] = 1;

/**
 * Where the next word begins, or the end.
 * @param {Uint8Array} octets
 * @param {number} at
 * @param {number} past
 * @returns {number}
 */
export function beginOfWord(octets, at, past) {
  while (at < past && IS_SPACE[octets[at]] === 1) {
    at += 1;
  }
  return at;
}

/**
 * Where a word ends.
 * @param {Uint8Array} octets
 * @param {number} at within the word
 * @param {number} past
 * @returns {number}
 */
export function endOfWord(octets, at, past) {
  while (at < past && IS_SPACE[octets[at]] === 0) {
    at += 1;
  }
  return at;
}

/**
 * Just after the last space: a word that begins there may go on in the next piece.
 * @param {Uint8Array} octets
 * @returns {number}
 */
export function afterLastSpace(octets) {
  let at = octets.length;
  while (at > 0 && IS_SPACE[octets[at - 1]] === 0) {
    at -= 1;
  }
  return at;
}

/** Takes the words of some octets, one after the other. */
export class Words {
  /**
   * @param {Uint8Array} octets
   * @param {number} past
   */
  constructor(octets, past) {
    this.octets = octets;
    this.past = past;
    this.at = 0;
  }

  /** @returns {Uint8Array|null} the next word; none at the end */
  next() {
    const begin = beginOfWord(this.octets, this.at, this.past);
    this.at = endOfWord(this.octets, begin, this.past);
    return begin < this.at ? this.octets.subarray(begin, this.at) : null;
  }
}

/**
 * A text with a character for each octet, so that octets are compared as texts.
 * @param {Uint8Array} octets
 * @returns {string}
 */
export function characters(octets) {
  let text = "";
  for (const octet of octets) {
    text += String.fromCharCode(octet);
  }
  return text;
}
