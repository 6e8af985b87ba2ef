/**
 * Wires in each other's place, told by what they do: a clock changes twice a bit, data once at most. The controller's
 * clock runs all the time. The stations' clock may run only with their data, and then both begin and end together.
 */

/** @typedef {import("./doubts.js").Facts} Facts */
/** @typedef {import("./doubts.js").Seen} Seen */

/**
 * Wires that seem to be exchanged, by their numbers: the one that is named first in the warning, then the other.
 * @typedef {{ sort: "crossed"|"pairs"|"clocks"|"data", wires: [number, number] }} Exchange
 */

const [TXC, TXD, RXC, RXD] = [0, 1, 2, 3];

/** Only a clock changes so often in a bit, and so many times more than other wires. */
const OF_CLOCK = 1.5;

/** So few changes say nothing. */
const ENOUGH = 8;

/** What differs by so many bits is not at the same time. */
const NEAR = 16;

/** Of the changes of data with another clock about half are while its clock is high. */
const [LEAST_SHARE, MOST_SHARE] = [0.4, 0.6];

/**
 * Whether a wire changes as often as a clock, from its first change to its last, its longest stop left out.
 * @param {Seen} changes
 * @param {number} bit
 * @param {number} [stop]
 */
function isClock({ count, first, last }, bit, stop = 0) {
  const length = last - first - (stop > NEAR * bit ? stop : 0);
  return count >= ENOUGH && (count - 1) * bit > OF_CLOCK * length;
}

/** @param {Seen} one @param {Seen} other @param {number} bit */
const isTogether = (one, other, bit) =>
  Math.abs(one.first - other.first) <= NEAR * bit && Math.abs(one.last - other.last) <= NEAR * bit;

/**
 * Whether the channel of data has the clock of its line.
 * @param {Seen} clock
 * @param {Seen} data
 * @param {number} bit
 */
const isCrossed = (clock, data, bit) =>
  clock.count >= ENOUGH && data.count > OF_CLOCK * clock.count && isTogether(clock, data, bit);

/** @param {Facts["lines"][0]} line @param {Seen} changes of its data */
function isOfAnother({ high }, { count }) {
  const share = high.count / count;
  return count >= ENOUGH && share > LEAST_SHARE && share < MOST_SHARE;
}

/**
 * Where the channel of the controller's clock has another wire, which one has that clock.
 * @param {Facts} facts
 * @param {Seen[]} seen of each wire
 * @param {boolean[]} clocks
 * @param {number} bit
 * @returns {Exchange[]}
 */
function exchangedClock({ lines: [{ bits }], jumps }, seen, clocks, bit) {
  if (clocks[TXC] || seen[TXC].count < ENOUGH) return [];
  const data = [TXD, RXD].find((wire) => clocks[wire]);
  if (data !== undefined) return [{ sort: "crossed", wires: [data, TXC] }];
  if (!clocks[RXC] || jumps.count < ENOUGH) return [];
  const { first, last } = seen[TXD];
  const isApart = first < bits.first - NEAR * bit || last > bits.last + NEAR * bit;
  return [{ sort: isApart ? "clocks" : "pairs", wires: [RXC, TXC] }];
}

/**
 * Where the stations' clock runs only with their data: which wire begins or ends apart from the two others of three,
 * so that it is the controller's data.
 * @param {Seen[]} seen
 * @param {number} bit
 * @returns {Exchange[]}
 */
function exchangedData(seen, bit) {
  const three = [TXD, RXC, RXD];
  if (three.some((wire) => seen[wire].count < ENOUGH)) return [];
  const apart = three.filter((wire) => {
    const [one, other] = three.filter((each) => each !== wire).map((each) => seen[each]);
    return isTogether(one, other, bit) && ![one, other].some((each) => isTogether(each, seen[wire], bit));
  });
  if (apart[0] === RXC) return [{ sort: "crossed", wires: [TXD, RXC] }];
  return apart[0] === RXD ? [{ sort: "data", wires: [TXD, RXD] }] : [];
}

/**
 * The wires of two lines with a clock each that seem to be exchanged.
 * @param {Facts} facts
 * @param {number} bit in samples
 * @returns {Exchange[]}
 */
export function exchangedOf(facts, bit) {
  const { wires, lines, jumps } = facts;
  const seen = [wires.txc, wires.txd, wires.rxc, wires.rxd].map(({ changes }) => changes);
  const clocks = seen.map((changes, at) => isClock(changes, bit, at % 2 === 0 ? lines[at / 2].gap.length : 0));
  const first = exchangedClock(facts, seen, clocks, bit);
  if (first.length > 0 && first[0].wires[0] !== TXD) return first;
  const isSwapped = clocks[RXD] && !clocks[RXC] && seen[RXC].count >= ENOUGH;
  /** @type {Exchange[]} */
  const second = isSwapped || isCrossed(seen[RXC], seen[RXD], bit) ? [{ sort: "crossed", wires: [RXD, RXC] }] : [];
  if (first.length + second.length > 0) return [...first, ...second];
  if (isCrossed(seen[TXC], seen[TXD], bit)) return [{ sort: "crossed", wires: [TXD, TXC] }];
  if (clocks[TXD] && !clocks[RXC] && seen[RXC].count >= ENOUGH) return [{ sort: "crossed", wires: [TXD, RXC] }];
  if (!clocks[TXD] && !clocks[RXC]) return exchangedData(seen, bit);
  const areOthers = isOfAnother(lines[0], seen[TXD]) && isOfAnother(lines[1], seen[RXD]);
  return areOthers && jumps.count === 0 ? [{ sort: "data", wires: [TXD, RXD] }] : [];
}
