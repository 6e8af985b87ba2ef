const SPACE = 32;
const ZERO = 48;
const NINE = 57;

/** What a hexadecimal digit is worth, as the program writes it; 16 for any other octet. */
const WORTH = new Uint8Array(256).fill(16);
"0123456789abcdef".split("").forEach((digit, worth) => (WORTH[digit.charCodeAt(0)] = worth));

/** Reads the parts of a line of text, octet by octet. What is not there is answered by -1, "" or false. */
export class Cursor {
  /** @param {Uint8Array} octets @param {number} at where the line begins @param {number} end where it ends */
  constructor(octets, at, end) {
    this.octets = octets;
    this.at = at;
    this.end = end;
  }

  get isAtEnd() {
    return this.at === this.end;
  }

  get isAtDigit() {
    return this.at < this.end && this.octets[this.at] >= ZERO && this.octets[this.at] <= NINE;
  }

  space() {
    const isThere = this.at < this.end && this.octets[this.at] === SPACE;
    if (isThere) this.at += 1;
    return isThere;
  }

  /** A number without leading zeros, below 2^53. */
  number() {
    const begin = this.at;
    let number = 0;
    while (this.isAtDigit) {
      number = 10 * number + (this.octets[this.at] - ZERO);
      this.at += 1;
    }
    const digits = this.at - begin;
    const isPlain = digits === 1 || (digits > 1 && this.octets[begin] !== ZERO);
    return isPlain && number <= Number.MAX_SAFE_INTEGER ? number : -1;
  }

  /** The text up to a space or the end; it has printable characters of ASCII alone. */
  word() {
    let word = "";
    while (this.at < this.end && this.octets[this.at] > SPACE && this.octets[this.at] < 127) {
      word += String.fromCharCode(this.octets[this.at]);
      this.at += 1;
    }
    return word;
  }

  /**
   * Whether a word comes next, which is then passed.
   * @param {string} word
   */
  skip(word) {
    for (let at = 0; at < word.length; at++) {
      if (this.octets[this.at + at] !== word.charCodeAt(at)) return false;
    }
    if (this.at + word.length > this.end) return false;
    this.at += word.length;
    return true;
  }

  /**
   * Octets, as pairs of hexadecimal digits, put into some memory.
   * @param {Uint8Array} into
   * @returns {number} how many
   */
  hex(into) {
    let count = 0;
    while (this.at + 1 < this.end && count < into.length) {
      const [high, low] = [WORTH[this.octets[this.at]], WORTH[this.octets[this.at + 1]]];
      if (high > 15 || low > 15) break;
      into[count++] = 16 * high + low;
      this.at += 2;
    }
    return count;
  }
}
