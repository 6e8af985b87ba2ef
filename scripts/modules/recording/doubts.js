import { RATE } from "../port1.js";
import { counted } from "../text.js";
import { exchangedOf } from "./exchanged.js";
import { placesOf, stretchesIn } from "./seams.js";

/** @typedef {import("./moments.js").Moments} Moments */
/** @typedef {import("./seams.js").Seam} Seam */

/**
 * How often something was, and where first and last, in samples.
 * @typedef {{ count: number, first: number, last: number }} Seen
 */

/** @typedef {{ level: number, changes: Seen }} Wire */

/**
 * What a sampler counted of a recording.
 * @typedef {object} Facts
 * @property {number} samples
 * @property {Record<"txc"|"txd"|"rxc"|"rxd", Wire>} wires
 * @property {{ bits: Seen, gap: { length: number, place: number }, high: Seen }[]} lines for each line its bits, the
 *   longest distance of two bits in a row and where it begins, and changes of the data while the clock is high
 * @property {Seen} jumps of the first clock's distance of two bits
 * @property {Seen} secondJumps of that of the second clock
 */

/**
 * What makes a result doubtful, by its sort, of a channel with a name, and of another.
 * @type {Record<string, (name: string, other: string) => string>}
 */
export const TEXTS = {
  crossed: (name, clock) => `${name} has the edges of a clock, and ${clock} has not: are the two exchanged?`,
  clocks: (name, clock) =>
    `${name} always runs, as the controller's clock does, and ${clock} does not: are the two exchanged?`,
  pairs: (name, clock) =>
    `${name} always runs, as the controller's clock does, and ${clock} does not: are the two pairs exchanged?`,
  data: (name, other) => `${name} and ${other} do not change with their clocks: are the two exchanged?`,
  slow: (name) => `${name} has fewer than four samples a bit: record 1 million samples a second or more`,
  still: (name) => `${name} has no edges`,
  flat: (name) => `${name} never changes`,
  rising: (name) => `the data changes at the edge of ${name} that is taken: try it with --falling`,
  falling: (name) => `the data changes at the edge of ${name} that is taken: try it without --falling`,
  turned: (name) =>
    `the data changes at the edge of ${name} that is taken: say --invert ${name}, or exchange the wires of its pair`,
  own: (name) => `${name} does not change with the clock: it has a clock of its own, whose channel is to be named`,
  inverted: (name) => `${name} rests at 0: if the two wires of its pair are exchanged, say --invert ${name}`,
  gap: (name) => `${name} stops`,
  end: (name) => `${name} stops, and does not go on until the recording ends`,
  lost: (name) => `the edges of ${name} jump: its wire has glitches, or samples were lost`,
  samples: (name, places) => `the analyser lost samples: ${name} is out of step from ${places} on`,
  piece: (name, places) => `the recording lacks ${name}: samples were lost at ${places}`,
  checksum: (name, places) => `the checksum of ${name} is wrong: samples are damaged from ${places}`,
  rounded: (name) => `rows of ${name} have the time of the row before them: export their times with all digits`,
};

/**
 * What makes a result doubtful.
 * @typedef {object} Warning
 * @property {string} sort
 * @property {string} name of a channel, or nothing
 * @property {number} count how often
 * @property {number|null} second when first, where that is known
 * @property {string} text as the script writes it
 * @property {number} [line] of the bus
 * @property {import("./seams.js").Stretch[]} [stretches] where the recording is not what was on the wires
 * @property {number} [stood] for how many seconds the first clock stood still, by which later times are too early
 * @property {number} [place] where it stood for longest
 */

/** The sorts of data that changes at the edge that is taken. */
const EDGES = ["rising", "falling", "turned"];

/** The first clock runs all the time, and data changes: so many bits without are no jitter, and no chance. */
export const LONG = 16;

/** Data has changed so often that where it does so says something. */
const ENOUGH = 8;

/**
 * Data changes where its clock falls, some samples sooner or later: so the share of changes while it is high is small.
 * It is great where bits are taken at the other edge, and a half where the data has a clock of its own.
 */
const HALF = 1 / 2;
const OWN = 3 / 8;

/** A line that stays at 0 for so many bits is at rest: one at rest is 1 (ISO/IEC 13239, idle). */
const REST = 256;

/** No answer takes so many bits: data that has not changed for so long while the other line's did is dead. */
const DEAD = 8192;

/** So much of the time in which data changed is a long rest of it. */
const LONG_REST = 1 / 4;

/** Fewer samples of a bit do not show both its edges for certain. */
const FEWEST_SAMPLES = 4;

const COUNT = /(?:(?<count>\d+) times, (?:(?<all>[^(),]+) in all, )?(?:first |the longest )?)?/;
const MOMENT = /(?:for (?<one>[^()]*) from )?(?:at )?(?:(?<second>[\d.]+) s|sample \d+)(?: on)?/;
const WHEN = new RegExp(`^(?<what>.*?)(?: \\(${COUNT.source}${MOMENT.source}\\))?$`);

/** The sorts that have places. */
const PLACED = new Set(["samples", "piece", "checksum"]);

/** @type {[string, RegExp][]} */
const PATTERNS = Object.entries(TEXTS).map(([sort, textOf]) => {
  const text = textOf("\0", "\x01").replace(/[()?]/g, "\\$&");
  const named = text.replace("\0", "(?<name>.+?)").replace("\x01", "(?<other>.+?)");
  return [sort, new RegExp(`^${named.replaceAll(/[\0\x01]/g, ".+?")}$`)];
});

/**
 * The warning that the script wrote as a text.
 * @param {string} text
 * @returns {Warning}
 */
export function warningOf(text) {
  const { what = "", count = "1", second, all, one = "" } = WHEN.exec(text)?.groups ?? {};
  for (const [sort, pattern] of PATTERNS) {
    const found = pattern.exec(what);
    if (!found) continue;
    const { name = "", other = "" } = found.groups ?? {};
    const stretches = PLACED.has(sort) ? { stretches: stretchesIn(other) } : {};
    const length = all ?? one;
    const stood = sort === "gap" && length.endsWith(" s") ? { stood: Number.parseFloat(length) } : {};
    return { sort, name, count: Number(count), second: second ? Number(second) : null, text, ...stretches, ...stood };
  }
  return { sort: "other", name: "", count: 1, second: null, text };
}

/**
 * How many edges of each clock were taken.
 * @param {Facts} facts
 * @param {string[]} names of the wires of clock and data of each line
 */
export function edgesOf({ lines }, names) {
  const clocks = names.filter((name, at) => at % 2 === 0 && names.indexOf(name) === at);
  return clocks.map((name, at) => `${name} has ${counted(lines[at].bits.count, "edge")}`).join(", ");
}

/**
 * The samples of a bit, as far as they are known.
 * @param {Facts} facts
 * @param {number|null} ticks in a second
 */
export function samplesOfBit({ lines }, ticks) {
  if (ticks) return ticks / RATE;
  const [{ bits }] = lines;
  return bits.count > 1 ? (bits.last - bits.first) / (bits.count - 1) : 0;
}

/**
 * What makes the bits of a recording doubtful: each fact once, with its place.
 * @param {Facts} facts
 * @param {string[]} names of the wires of clock and data of each line
 * @param {{ rising: boolean, when: Moments, isSampled?: boolean, seams?: Seam[] }} how the bits were taken, how times
 *   are told, whether levels are known only at samples, and what is lacking or wrong in the recording
 * @returns {Warning[]}
 */
export function doubtsOf(facts, names, { rising, when, isSampled = false, seams = [] }) {
  const bit = samplesOfBit(facts, when.ticks);
  const isShared = names[0] === names[2];
  const exchanges = names.length === 4 && !isShared && bit > 0 ? exchangedOf(facts, bit) : [];
  const wires = exchanges.map((exchange) => exchange.wires).flat();
  const exchanged = exchanges.map(({ sort, wires: [one, other] }) => {
    return warning(sort, names[one], { other: names[other] });
  });
  const ofLines = facts.lines.slice(0, names.length / 2).flatMap((line, at) => {
    if (wires.some((wire) => wire >> 1 === at)) return [];
    const [clock, data] = names.slice(2 * at);
    const isOwn = isShared && at === 1;
    const stops = seams.find(({ sort }) => sort === "stops");
    const ofClock = isOwn ? [] : clockDoubts(line, clock, at, { facts, bit, when, stops });
    const ofData = dataDoubts(line, at, { clock, data, isOwn, isAlone: names.length < 4, rising, facts, bit, when });
    // While the clock stands still, data may change at any level of it.
    return [...ofClock, ...ofData.filter(({ sort }) => ofClock.length === 0 || !EDGES.includes(sort))];
  });
  // What is no clock shows neither that samples were lost nor that they are few.
  const sure = wires.includes(0) ? seams.filter(({ sort }) => sort !== "coarse" && sort !== "samples") : seams;
  const isCoarse = sure.some(({ sort }) => sort === "coarse");
  const slow = isSampled || isCoarse ? slowness(facts, names[0], when, isCoarse) : [];
  const ofFile = sure.filter(({ sort }) => PLACED.has(sort) || sort === "rounded").map((seam) => seamTold(seam, when));
  // Edges that are seen by chance jump, and those beside lost samples do.
  // Of edges without their times nothing is known.
  if (ofFile.some(({ sort }) => sort === "rounded")) return ofFile;
  const seamCount = ofFile.reduce((sum, { count }) => sum + count, 0);
  const isOfSeams = slow.length > 0 || (seamCount > 0 && facts.jumps.count <= MOST_JUMPS * seamCount);
  return [...slow, ...ofFile, ...exchanged, ...ofLines.filter(({ sort }) => !isOfSeams || sort !== "lost")];
}

/** Jumps beside samples that were lost: to the rise after them, and from there. */
export const MOST_JUMPS = 2;

/** @param {Seam} seam @param {Moments} when @returns {Warning} */
function seamTold({ sort, name, from, count, stretches }, when) {
  const told = count === 1 ? `at ${when.of(from)}` : `${count} times, first at ${when.of(from)}`;
  const found = warning(sort, name, { other: placesOf(stretches), when, sample: from, told, count });
  return PLACED.has(sort) ? { ...found, stretches } : found;
}

/**
 * That there are too few samples, by the rate that is known and by the edges.
 * @param {Facts} facts
 * @param {string} name
 * @param {Moments} when
 * @param {boolean} isCoarse whether the edges themselves say so
 */
function slowness(facts, name, { ticks }, isCoarse) {
  if (isCoarse) return [warning("slow", name)];
  if (!ticks || facts.lines[0].bits.count < LONG) return [];
  return Math.max(ticks / RATE, samplesOfBit(facts, null)) < FEWEST_SAMPLES ? [warning("slow", name)] : [];
}

/**
 * @param {string} sort
 * @param {string} name
 * @param {{ other?: string, when?: Moments, sample?: number, told?: string, count?: number }} [more]
 * @returns {Warning}
 */
function warning(sort, name, more = {}) {
  const { other = "", when, sample, told, count = 1 } = more;
  const isPlaced = when !== undefined && sample !== undefined;
  const at = isPlaced ? ` (${told ?? `at ${when.of(sample)}`})` : "";
  const second = isPlaced ? when.second(sample) : null;
  return { sort, name, count, second, text: `${TEXTS[sort](name, other)}${at}` };
}

/**
 * @param {Facts["lines"][0]} line
 * @param {string} name
 * @param {number} at 0 for the first clock, which ought to run all the time
 * @param {{ facts: Facts, bit: number, when: Moments, stops?: Seam }} all
 */
function clockDoubts({ bits, gap }, name, at, { facts, bit, when, stops }) {
  if (bits.count === 0) return [warning("still", name)];
  if (bit === 0) return [];
  const { jumps, secondJumps, samples, wires } = facts;
  const isLong = (/** @type {number} */ length) => length > LONG * bit;
  const isDead = at === 0 ? isLong(samples - bits.last) : wires.rxd.changes.last - bits.last > REST * bit;
  const end = isDead ? [warning("end", name, { when, sample: bits.last })] : [];
  const isFree = !isLong(gap.length) && !isLong(bits.first) && !isLong(samples - bits.last);
  if (at === 1) return [...end, ...(isFree ? lostOf(name, secondJumps, when) : [])];
  const { count = 1, samples: inAll = gap.length, place } = stops ?? {};
  const times = count > 1 ? `${count} times, ${when.length(inAll)} in all, the longest ` : "";
  const told = `${times}for ${when.length(gap.length)} from ${when.of(gap.place)} on`;
  const stood = when.ticks ? { stood: Number((inAll / when.ticks).toFixed(6)) } : {};
  const stop = { ...warning("gap", name, { when, sample: gap.place, told, count }), ...stood };
  const gaps = isLong(gap.length) ? [place === undefined ? stop : { ...stop, place }] : [];
  const isOfStop = gaps.length > 0 || (isDead && jumps.first > bits.last - LONG * bit);
  return [...gaps, ...end, ...(isOfStop ? [] : lostOf(name, jumps, when))];
}

/** @param {string} name of a clock @param {Seen} jumps @param {Moments} when */
function lostOf(name, { count, first }, when) {
  const told = count === 1 ? `at ${when.of(first)}` : `${count} times, first at ${when.of(first)}`;
  return count > 0 ? [warning("lost", name, { when, sample: first, told, count })] : [];
}

/**
 * Whether the data of a line does not change any more, though nothing says that its line is at rest.
 * @param {Facts["lines"][0]} line
 * @param {Wire} wire
 * @param {Seen|null} other changes of the other line's data
 * @param {number} bit
 */
function isDeadData({ bits }, { level, changes }, other, bit) {
  const least = Math.max(DEAD * bit, LONG_REST * (changes.last - changes.first));
  if (level === 1) return other !== null && other.last - changes.last > least;
  const begins = changes.count % 2; // the level of the wire before its first change, as the last one is 0
  if (changes.first > LONG * bit) return begins === 1;
  return Math.max(bits.last, other?.last ?? 0) - changes.last > least;
}

/**
 * @param {Facts["lines"][0]} line
 * @param {number} at
 * @param {{ clock: string, data: string, isOwn: boolean, isAlone: boolean, rising: boolean, facts: Facts, bit: number,
 *   when: Moments }} all
 */
function dataDoubts(line, at, { clock, data, isOwn, isAlone, rising, facts, bit, when }) {
  const { bits, high } = line;
  const { txd, rxd } = facts.wires;
  const [wire, other] = at === 0 ? [txd, rxd] : [rxd, txd];
  const { level, changes } = wire;
  if (bits.count === 0) return [];
  if (changes.count === 0) return bits.count < LONG ? [] : [warning("flat", data)];
  const isSure = changes.count >= ENOUGH;
  const rest = level === 0 ? facts.samples - changes.last : 0;
  const isAtZero = bit > 0 && rest > REST * bit;
  const isLeft = bit > 0 && isSure && (level === 1 || isAtZero);
  const dead = isLeft && isDeadData(line, wire, isAlone ? null : other.changes, bit);
  const inverted = isAtZero && !dead ? [{ ...warning("inverted", data), line: at + 1 }] : [];
  const ofLevel = dead ? [warning("end", data, { when, sample: changes.last })] : inverted;
  const share = isSure ? high.count / changes.count : 0;
  if (isOwn) return share > OWN ? [warning("own", data), ...ofLevel] : ofLevel;
  if (share <= HALF) return ofLevel;
  const isTurned = !isAlone && isRight(facts.lines[1 - at], other);
  return [warning(isTurned ? "turned" : rising ? "rising" : "falling", clock), ...ofLevel];
}

/**
 * Whether bits of a line are certainly taken at the right edge.
 * @param {Facts["lines"][0]} line
 * @param {Wire} data
 */
const isRight = ({ bits, high }, { changes: { count } }) =>
  bits.count > 0 && count >= ENOUGH && high.count < OWN * count;
