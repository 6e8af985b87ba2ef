import { counted } from "../text.js";
import { NOTHING_KNOWN, wrong } from "./wrong.js";

/** @typedef {import("./bus.js").Bus} Bus */
/** @typedef {import("./wrong.js").Known} Known */

/**
 * What is said beside what is wrong: in the report, and on a screen.
 * @typedef {{ sort: "lines"|"frames"|"dictionary"|"verdicts"|"windows"|"pending", text: string, shown: string }} Said
 */

/**
 * What is said of a bus at first sight.
 * @typedef {object} Verdict
 * @property {"fault"|"doubt"|"unknown"|"well"} level "unknown" where it is not, or not all, judged
 * @property {boolean} isJudged whether commands have a verdict at all
 * @property {boolean} isLateJudged whether a reply can have been judged late
 * @property {Said[]} lacks what was not judged
 * @property {Said[]} notes what is said beside
 * @property {string[]} well that nothing is wrong, as far as it was judged
 */

/** What a listing can lack: in the report, and on a screen. */
const LACKS = {
  lines: [
    "The listing is empty: nothing is known of the bus. Where a fault was told, mend that first.",
    "Nothing is on the bus: no frame, no damaged piece and no idle line.",
  ],
  frames: [
    "The listing has no frames: the bus had none, or a filter left them out.",
    "There is no frame: the bus had none, or the wires are not the ones that were chosen.",
  ],
  dictionary: [
    "The listing was made without a dictionary: which commands were answered, and when, is not known.",
    "There is no dictionary: which commands were answered, and when, is not known.",
  ],
  verdicts: [
    "No command asked for an answer: the dictionary may lack `answered = true`.",
    "No command asked for an answer: the dictionary may not say which commands are answered.",
  ],
};

/** In the report, and on a screen. */
const NO_WORD_OF_WINDOWS = [
  "Whether any reply could be judged late is not known: name the dictionary with --dictionary FILE.",
  "Whether a reply was late is known only where the dictionary had a window; which ones it had, a listing does not say.",
];

const EXCHANGED =
  "Which commands were answered is not judged: exchange the wires of commands and answers, and read again.";

/** @param {Said["sort"]} sort @param {string} text @returns {Said} */
const said = (sort, text, shown = text) => ({ sort, text, shown });

/**
 * What the listing does not have, if anything.
 * @param {Bus} bus
 * @returns {Said[]}
 */
function lackOf(bus) {
  /** @param {keyof typeof LACKS} sort */
  const lack = (sort) => [said(sort, LACKS[sort][0], LACKS[sort][1])];
  if (bus.rows === 0) return lack("lines");
  if (bus.frames === 0) return lack("frames");
  if (!bus.named) return lack("dictionary");
  return bus.commands.sorted().some(([, { decided }]) => decided > 0) ? [] : lack("verdicts");
}

/**
 * Whether a reply can have been judged late: by a window that is known, or one was.
 * @param {Bus} bus
 * @param {Known} known
 */
function hasWindows(bus, { entries }) {
  if (entries !== null) return entries.some(({ answered, window }) => answered && window > 0);
  return bus.commands.sorted().some(([, { verdicts }]) => verdicts.late > 0);
}

/**
 * What is not judged for want of a window.
 * @param {Bus} bus
 * @param {Known} known
 * @returns {Said[]}
 */
function windowsLacking(bus, { entries }) {
  if (entries === null) {
    const [inReport, onScreen] = NO_WORD_OF_WINDOWS;
    return hasWindows(bus, { ...NOTHING_KNOWN }) ? [] : [said("windows", inReport, onScreen)];
  }
  const answered = entries.filter((entry) => entry.answered);
  const open = answered.filter(({ window }) => window === 0).map(({ type }) => type);
  if (open.length === 0) return [];
  const types = `${open.length === 1 ? "type" : "types"} ${open.join(", ")}`;
  const text =
    open.length === answered.length
      ? "No reply was judged late: the dictionary has no window."
      : `No reply to ${types} was judged late: the dictionary has no window there.`;
  return [said("windows", text)];
}

/**
 * The commands that wait at the end.
 * @param {Bus} bus
 * @returns {Said[]}
 */
function waitingOf({ pending: { total } }) {
  if (total === 0) return [];
  const waits = total === 1 ? "waits" : "wait";
  return [said("pending", `${counted(total, "command")} at the end still ${waits} for an answer.`)];
}

/**
 * Whether the last command waits for longer than any answer took.
 * @param {Bus} bus
 * @param {number|null} end
 */
function isWaitingLong({ waiting, past, commands }, end) {
  const longest = Math.max(0, ...commands.sorted().map(([, { replies }]) => replies.most));
  return waiting !== null && (end ?? past) - waiting > longest;
}

/**
 * That nothing is wrong, as far as it was judged.
 * @param {Bus} bus
 * @param {Said[]} lacks
 */
function wellOf(bus, lacks) {
  if (bus.frames === 0) return [];
  const isOpen = (/** @type {string} */ wanted) => lacks.some(({ sort }) => sort === wanted);
  if (isOpen("dictionary") || isOpen("verdicts")) return ["Nothing is damaged, and no gap between commands stands out."];
  if (isOpen("windows")) return ["Nothing is damaged, missing or spoilt, and no gap between commands stands out."];
  return ["Nothing is wrong: nothing is damaged, missing, spoilt or late, and no gap between commands stands out."];
}

/**
 * @param {Bus} bus
 * @param {Known} [known]
 * @param {{ sort: string, level: string }[]} [sentences] what is wrong
 * @param {boolean} [isDoubtful] whether the recording has warnings, or the file a fault
 * @returns {Verdict}
 */
export function verdictOf(bus, known = NOTHING_KNOWN, sentences = wrong(bus, known), isDoubtful = false) {
  const lack = lackOf(bus);
  const isJudged = bus.frames > 0 && bus.named;
  const waiting = waitingOf(bus);
  const isLong = isWaitingLong(bus, known.end);
  const areExchanged = sentences.some(({ sort }) => sort === "lines");
  const areWrong = bus.beside.isAll || sentences.some(({ sort }) => sort === "wires");
  const open = isJudged && lack.length === 0 ? windowsLacking(bus, known) : [];
  // Without the frames of a line, neither the bus nor the dictionary is to blame for what is not judged.
  const own = areWrong ? lack.filter(({ sort }) => sort === "dictionary") : lack;
  const lacks = [...(areExchanged ? [said("lines", EXCHANGED)] : [...own, ...open]), ...(isLong ? waiting : [])];
  return {
    ...{ level: levelOf(sentences, lacks, isDoubtful), isJudged, isLateJudged: isJudged && hasWindows(bus, known) },
    ...{ lacks, notes: isLong ? [] : waiting, well: wellOf(bus, lacks) },
  };
}

/** @param {{ level: string }[]} sentences @param {Said[]} lacks @param {boolean} isDoubtful @returns {Verdict["level"]} */
function levelOf(sentences, lacks, isDoubtful) {
  if (sentences.some(({ level }) => level === "fault")) return "fault";
  if (sentences.length > 0 || isDoubtful) return "doubt";
  return lacks.length > 0 ? "unknown" : "well";
}
