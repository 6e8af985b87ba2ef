import { isUnfit } from "../listing/kinds.js";
import { usualGap } from "./gaps.js";
import { verdictOf } from "./verdict.js";
import { NOTHING_KNOWN, wrong } from "./wrong.js";

/** @typedef {import("./bus.js").Bus} Bus */
/** @typedef {import("./commands.js").Commands} Commands */

/**
 * The longest time without a command: between two, before the first, or after the last. In bits.
 * @param {Commands} commands
 * @param {Bus} bus
 */
function longestGap({ first, last, longestOfAll: longest }, bus) {
  if (first === null || last === null) return null;
  const between = longest === null ? 0 : longest.to.place - longest.from.place;
  return Math.max(between, first.place - bus.first, bus.past - last.place);
}

/** @param {number} part @param {number} whole */
const percent = (part, whole) => (whole === 0 ? null : (100 * part) / whole);

/**
 * What is known of a kind of commands. Times are in milliseconds; what is not known is null.
 * @param {[import("./kinds.js").Kind, Commands]} kind
 * @param {Bus} bus
 */
function kindOf([{ station, type }, commands], bus) {
  /** @param {number|null} bits */
  const inMilliseconds = (bits) => (bits === null ? null : (bits * 1000) / bus.rate);
  const { replies, decided, bad, sent, verdicts } = commands;
  /** @param {number} bits */
  const reply = (bits) => (replies.total === 0 ? null : inMilliseconds(bits));
  return {
    ...{ station, type, name: isUnfit(commands.name) ? "" : commands.name },
    ...{ sent, decided, ...verdicts, badPercent: percent(bad, decided) },
    replyMs: {
      ...{ least: reply(replies.least), median: reply(replies.quantile(50)) },
      ...{ percent99: reply(replies.quantile(99)), longest: reply(replies.most) },
    },
    gapMs: { usual: inMilliseconds(usualGap(commands) || null), longest: inMilliseconds(longestGap(commands, bus)) },
  };
}

/** @param {{ sort: string, text: string, kind?: import("./sentences.js").Sentence["kind"] }} sentence */
const sentenceOf = ({ sort, text, kind = null }) => ({ sort, text, kind });

/**
 * All statistics and sentences of a listing, for JSON.
 * @param {Bus} bus
 * @param {import("./wrong.js").Known} [known]
 */
export function objectOf(bus, known = NOTHING_KNOWN) {
  const { rate, lines, frames, damaged, named } = bus;
  const sentences = wrong(bus, known);
  const { lacks, notes } = verdictOf(bus, known, sentences);
  return {
    ...{ rate, lines, seconds: (bus.past - bus.first) / rate, frames, damaged, hasDictionary: named },
    ...{ pending: bus.pending.total, strays: bus.strays.total },
    damagedPercent: percent(damaged, frames + damaged),
    damage: bus.damage.sorts.map(({ line, cause, count }) => ({ line, cause, count })),
    kinds: bus.commands.sorted().map((kind) => kindOf(kind, bus)),
    wrong: sentences.map(sentenceOf),
    unknown: [...lacks, ...notes].map(sentenceOf),
  };
}
