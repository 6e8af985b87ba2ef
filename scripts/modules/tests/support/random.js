/**
 * A source of random numbers that gives the same ones for the same seed (mulberry32).
 * @param {number} seed
 */
export function randomOf(seed) {
  let state = seed >>> 0;
  const next = () => {
    state = (state + 0x6d2b79f5) >>> 0;
    let mixed = Math.imul(state ^ (state >>> 15), state | 1);
    mixed ^= mixed + Math.imul(mixed ^ (mixed >>> 7), mixed | 61);
    return ((mixed ^ (mixed >>> 14)) >>> 0) / 2 ** 32;
  };
  const below = (limit) => Math.floor(next() * limit);
  return {
    /** A whole number from 0 on, below a limit. */
    below,
    /** A whole number from the least to the most. */
    between: (least, most) => least + below(most - least + 1),
    /** Whether something is so that is so once in so many times. */
    once: (times) => below(times) === 0,
    /** One of some values. */
    one: (values) => values[below(values.length)],
  };
}
