import { FINDINGS, SORTS } from "./findings.js";
import { holes } from "./gaps.js";

/** @typedef {import("./sentences.js").Sentence} Sentence */

/**
 * What is known of a bus beside its listing.
 * @typedef {object} Known
 * @property {number|null} end of the recording in bits
 * @property {import("../dictionary/dictionary.js").Entry[]|null} entries of the dictionary
 */

/** @type {Known} */
export const NOTHING_KNOWN = { end: null, entries: null };

/**
 * A sentence, and how grave it is.
 * @typedef {Sentence & { level: "fault"|"doubt" }} Judged
 */

// The most sentences of one sort; the table has the rest.
const MOST_TOLD = 6;

/** The sorts that exchanged lines explain. */
const OF_EXCHANGED = new Set(["stray", "damage"]);

/** @param {Sentence} sentence @returns {Judged} */
const judged = (sentence) => ({ ...sentence, level: FINDINGS[sentence.sort].isFault(sentence) ? "fault" : "doubt" });

/**
 * The first sentences of a sort, and how many more there are.
 * @param {Judged[]} sentences
 * @returns {Judged[]}
 */
function told(sentences) {
  const rest = sentences.length - MOST_TOLD;
  if (rest <= 0) return sentences;
  const first = sentences.slice(0, MOST_TOLD);
  const { level } = first[MOST_TOLD - 1];
  return [...first, { sort: "more", level, text: `And ${rest} more of this sort; the table has them.` }];
}

/**
 * The causes, each of which stands in place of sentences that no cause before it takes.
 * @param {import("./sentences.js").Seen} seen
 * @param {Sentence[]} all
 */
function causesOf(seen, all) {
  /** @type {Sentence[]} */
  const causes = [];
  for (const sort of SORTS.filter((name) => FINDINGS[name].isCause)) {
    causes.push(...FINDINGS[sort].find(seen, all.filter((sentence) => !causes.some(({ takes }) => takes?.(sentence)))));
  }
  return causes;
}

/**
 * What is wrong, in sentences, the most serious first, one for a common cause of several; and the times without a
 * command that have no such cause.
 * @param {import("./bus.js").Bus} bus
 * @param {Known} known
 * @returns {{ sentences: Judged[], gaps: import("./gaps.js").Hole[] }}
 */
export function judgedBus(bus, { end, entries }) {
  const gaps = holes(bus);
  const seen = { bus, end, entries, gaps };
  const sorts = SORTS.filter((sort) => !FINDINGS[sort].isCause).map((sort) => FINDINGS[sort].find(seen, []));
  const all = sorts.flat();
  const causes = causesOf(seen, all);
  const areExchanged = all.some(({ sort }) => sort === "lines");
  /** @param {Sentence} sentence */
  const isOwn = (sentence) =>
    !causes.some(({ takes }) => takes?.(sentence)) && !(areExchanged && OF_EXCHANGED.has(sentence.sort));
  const left = sorts.flatMap((sentences) => told(sentences.filter(isOwn).map(judged)));
  const found = [...causes.map(judged), ...left];
  const ofLevel = (/** @type {string} */ wanted) => found.filter(({ level }) => level === wanted);
  return {
    sentences: [...ofLevel("fault"), ...ofLevel("doubt")],
    gaps: gaps.filter((hole) => isOwn({ sort: "gap", text: "", hole })),
  };
}

/**
 * What is wrong, in sentences, the most serious first.
 * @param {import("./bus.js").Bus} bus
 */
export const wrong = (bus, known = NOTHING_KNOWN) => judgedBus(bus, known).sentences;
