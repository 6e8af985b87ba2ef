/** Numbers as recordings write them. */

/**
 * The nearest whole number; from halfway, the even one.
 * @param {number} value
 * @returns {number}
 */
export function rounded(value) {
  const near = Math.round(value); // from halfway, the greater one
  return near - value === 0.5 && near % 2 !== 0 ? near - 1 : near;
}

const FLOAT = /^\s*[-+]?(?:\d+\.?\d*|\.\d+)(?:[eE][-+]?\d+)?\s*$/;

const WHOLE = /^[-+]?\d+$/;

/**
 * The number that a text stands for, NaN if it is none.
 * @param {string} text
 * @returns {number}
 */
export function floatOf(text) {
  return FLOAT.test(text) ? Number(text) : NaN;
}

/**
 * The whole number that a text stands for, NaN if it is none.
 * @param {string} text
 * @returns {number}
 */
export function wholeOf(text) {
  return WHOLE.test(text) ? Number(text) : NaN;
}

/** Powers of ten that a double holds exactly. */
const TENS = Float64Array.from({ length: 23 }, (_, exponent) => Number(`1e${exponent}`));

const [ZERO, NINE, DOT, MINUS] = [48, 57, 46, 45];

/**
 * The decimal number in some octets, if a single division gives it exactly as a parser would; NaN if it may not, or if
 * it is no number of digits with a point at most.
 * @param {Uint8Array} octets
 * @param {number} begin
 * @param {number} past
 * @returns {number}
 */
export function plainDecimal(octets, begin, past) {
  const first = octets[begin] === MINUS ? begin + 1 : begin;
  let digits = 0;
  let point = -1;
  for (let at = first; at < past; at++) {
    const octet = octets[at];
    if (octet >= ZERO && octet <= NINE) {
      digits = digits * 10 + (octet - ZERO);
    } else if (octet === DOT && point < 0) {
      point = at;
    } else {
      return NaN;
    }
  }
  const count = past - first - (point < 0 ? 0 : 1);
  const decimals = point < 0 ? 0 : past - point - 1;
  if (count < 1 || decimals > 22 || digits > Number.MAX_SAFE_INTEGER) return NaN;
  const value = digits / TENS[decimals];
  return first > begin ? -value : value;
}
