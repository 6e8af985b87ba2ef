/**
 * How many of so many things, in order, come before a place.
 * @param {number} count
 * @param {(at: number) => boolean} isBefore of one of them, by its number
 */
export function countBefore(count, isBefore) {
  let [low, high] = [0, count];
  while (low < high) {
    const middle = Math.floor((low + high) / 2);
    if (isBefore(middle)) low = middle + 1;
    else high = middle;
  }
  return low;
}
