import { counted } from "../text.js";
import { typeNamed } from "./sentences.js";

/** @typedef {import("./bus.js").Bus} Bus */
/** @typedef {import("./sentences.js").Sentence} Sentence */

/** The fewest answers of which one stands out, how many times the median it takes, and how much longer at least. */
const FEWEST = 10;
const TIMES = 3;
const LEAST_SECONDS = 0.001;

/** Where more than one in so many takes as long, that is how the station is, which is said. */
const RARE = 5;

/**
 * Replies that stand far out, of kinds of commands that have no window: nothing else judges them.
 * @param {import("./sentences.js").Seen} seen
 * @returns {Sentence[]}
 */
export function slowOf({ bus, entries }) {
  const timed = new Set((entries ?? []).filter(({ window }) => window > 0).map(({ type }) => type));
  return bus.commands.sorted().flatMap(([kind, commands]) => {
    const { inTime, late } = commands;
    if (inTime.total < FEWEST || late.total > 0 || timed.has(kind.type)) return [];
    const usual = inTime.quantile(50);
    const limit = Math.max(TIMES * usual, usual + LEAST_SECONDS * bus.rate);
    const count = inTime.above(limit);
    if (count === 0) return [];
    return [sentenceOf(kind, commands, { usual, limit, count, isKnown: entries !== null }, bus)];
  });
}

/**
 * @param {import("./kinds.js").Kind} kind
 * @param {import("./commands.js").Commands} commands
 * @param {{ usual: number, limit: number, count: number, isKnown: boolean }} found
 * @param {Bus} bus
 * @returns {Sentence}
 */
function sentenceOf(kind, commands, { usual, limit, count, isKnown }, bus) {
  const { duration } = bus.units;
  const far = commands.inTime.pairs().filter(([bits]) => bits > limit);
  const [least, most] = [duration(far[0][0]), duration(commands.inTime.most)];
  const times = least === most ? least : `${least.slice(0, -" ms".length)} to ${most}`;
  const text =
    `Station ${kind.station} took ${times} for ${count} of ${counted(commands.inTime.total, "answer")} to ` +
    `${typeNamed(kind, commands.name)}, where ${duration(usual)} is usual` +
    (count * RARE > commands.inTime.total ? ": that is how the station is, or its load." : ".") +
    (isKnown ? " No window says whether that is late." : "");
  return { sort: "slow", text, kind, count, commands, limit };
}
