/**
 * A place as seconds, with as many digits as a stretch of so many bits needs.
 * @param {number} place
 * @param {number} rate
 * @param {number} stretch
 */
export const seconds = (place, rate, stretch) => (place / rate).toFixed(digitsOf(stretch, rate));

/**
 * How many digits of a second a stretch of so many bits needs.
 * @param {number} stretch
 * @param {number} rate
 */
export const digitsOf = (stretch, rate) => Math.min(9, Math.max(3, Math.ceil(3 - Math.log10(stretch / rate))));

/**
 * A length in bits as a time, in a unit that suits it.
 * @param {number} bits
 * @param {number} rate
 */
export function duration(bits, rate) {
  const time = bits / rate;
  if (time >= 1) return `${time.toFixed(3)} s`;
  return time >= 0.001 ? `${(time * 1000).toFixed(3)} ms` : `${(time * 1e6).toFixed(1)} µs`;
}

/**
 * A number with its digits in groups of three.
 * @param {number} number
 */
export function grouped(number) {
  return number.toLocaleString("en").replaceAll(",", " ");
}
