import { ANSWERED, DAMAGES, FRAME, LATE, MISSING, SPOILT, STRAY } from "../listing/kinds.js";
import { UNKNOWN, WRONG_LENGTH } from "../listing/listing.js";
import { ANSWER } from "../port1.js";
import { counted } from "../text.js";
import { besideSeams, deadEnd, noAnswers, quietBus, wrongWires } from "./causes.js";
import * as told from "./sentences.js";
import { slowOf } from "./slow.js";
import { lengthOf } from "./units.js";

/**
 * The findings of a bus. Over the finished listing, and what is known of its recording, they are:
 *
 * - beside: what is wrong where the recording is unsure, which is then no other finding's;
 * - wires: lines without a frame, or four frames of line 2 in a row without one of line 1;
 * - rest: nothing on either line until the end, for three times any rest before and 1.5 times the least usual gap;
 * - mute: rows of commands, to all stations that answer, without an answer (answers.js), or no frame on line 2 at all;
 * - quiet: rests of the controller's line half as long as the longest or longer, which explain gaps of two kinds;
 * - lines: more commands on line 2, or answers on line 1, than commands on line 1;
 * - gap: times without a command of a kind above 1.5 times the usual one (gaps.js);
 * - silent: kinds of commands with missing answers and no other; missing, late, spoilt: such verdicts of other kinds;
 * - slow: of kinds without a window, replies above three times their median and a millisecond more than it;
 * - damage, length, unknown, stray: such lines.
 *
 * A cause takes the sentences that it explains: wires, rest, mute and quiet those of gaps, missing answers and damage.
 */

/** @typedef {import("../listing/listing.js").Listing} Listing */
/** @typedef {import("./sentences.js").Sentence} Sentence */
/** @typedef {import("./sentences.js").Sort} Sort */

/** @typedef {"missing"|"late"|"spoilt"|"stray"|"damage"|"gap"|"rest"|"silent"|"lines"|"length"|"more"} Sign */

/**
 * Lines of a listing that a finding is about: of these kinds, and whether one is.
 * @typedef {{ kinds: number[], agrees: (listing: Listing, sentence: Sentence) => (at: number) => boolean }} Lines
 */

/**
 * What a short text is made of. Its kind is null where the finding has none, and that text does not ask for it.
 * @typedef {object} Facts
 * @property {NonNullable<Sentence["kind"]>} kind
 * @property {number} count
 * @property {import("./rests.js").Place[]} places
 * @property {number} rate
 * @property {boolean} isOver
 */

/**
 * A sort of findings.
 * @typedef {object} FindingSort
 * @property {(seen: import("./sentences.js").Seen, others: Sentence[]) => Sentence[]} find what is found of it. Of a
 *   cause, `others` are the sentences that it may stand in place of
 * @property {boolean} isCause whether its sentences stand in place of others, and so are found after these
 * @property {(sentence: Sentence) => boolean} isFault whether it can put a cabinet into flash
 * @property {(facts: Facts) => string} short what the verdict says of it
 * @property {Lines|"stretches"|"places"} shows its lines; or its places, which are stretches of time or are not
 * @property {string} over what is written over its stretches, through all stations; nothing where it has none
 * @property {Sign} sign
 * @property {{ name: string, words: string }|null} incident as a watch names it, # in place of its type of commands
 */

const ALWAYS = () => true;
const NEVER = () => false;

/** @type {Lines["agrees"]} */
const ofKind = ({ stations, types }, { kind }) => (at) =>
  !kind || (stations[at] === kind.station && (kind.type === null || types[at] === kind.type));

/** @type {Lines["agrees"]} */
const ofSlow = (listing, sentence) => (at) =>
  ofKind(listing, sentence)(at) && (listing.replyBits(at) ?? 0) > (sentence.limit ?? Infinity);

/** @param {number} wanted @returns {Lines["agrees"]} */
const ofHead = (wanted) => ({ heads }) => (at) => heads[at] === wanted;

/** @type {Lines["agrees"]} */
const ofCommandsBack = ({ lines, types }) => (at) => lines[at] === 2 && types[at] >= 0 && types[at] < ANSWER;

/** @param {number[]} kinds @param {Lines["agrees"]} [agrees] @returns {Lines} */
const lines = (kinds, agrees = ofKind) => ({ kinds, agrees });

/** So many missing answers in a row, or one in so many commands, can put a cabinet into flash. */
const ROW = 3;
const SHARE = 100;

/**
 * What a watch saves, which listens for weeks, is more: answers in a row that are bad, damaged pieces in a second, and
 * seconds without anything on either line.
 */
export const SAVED = { row: 5, burst: 5, rest: 1 };

/** @param {Sentence} sentence */
const isManyMissing = ({ count = 0, commands }) =>
  commands !== undefined && (commands.longestSilence.commands >= ROW || count * SHARE >= commands.decided);

/** @param {string} what @returns {FindingSort["short"]} */
const answers = (what) => ({ kind, count }) => `Station ${kind.station}: ${counted(count, "answer")} ${what}`;

/** @param {string} what @returns {FindingSort["short"]} */
const frames = (what) => ({ count }) => `${count} ${count === 1 ? "frame has" : "frames have"} ${what}`;

/**
 * All findings, the most serious first: whoever tells, counts, draws or grades one reads its entry.
 * @type {Record<Sort, FindingSort>}
 */
export const FINDINGS = {
  beside: {
    ...{ find: besideSeams, isCause: true, isFault: NEVER },
    ...{ shows: "stretches", over: "", sign: "length", incident: null },
    short: () => "The recording lacks samples",
  },
  wires: {
    ...{ find: wrongWires, isCause: true, isFault: ALWAYS },
    ...{ shows: "places", over: "", sign: "lines", incident: null },
    short: () => "A line has no frames: look at its wires",
  },
  rest: {
    ...{ find: deadEnd, isCause: true, isFault: ALWAYS, shows: "stretches", over: "nothing", sign: "rest" },
    short: () => "The bus goes dead before the end",
    incident: { name: "rest", words: "nothing on either line" },
  },
  mute: {
    ...{ find: noAnswers, isCause: true, isFault: ALWAYS },
    ...{ shows: "places", over: "", sign: "silent", incident: null },
    short: ({ isOver, places: [{ first, past }], rate }) =>
      isOver ? `No station answered for ${lengthOf(past - first, rate)}` : "No station answers",
  },
  quiet: {
    ...{ find: quietBus, isCause: true, isFault: ALWAYS },
    ...{ shows: "stretches", over: "no command", sign: "gap" },
    short: ({ places: [{ first, past }], rate }) => `No command at all for ${lengthOf(past - first, rate)}`,
    incident: null,
  },
  lines: {
    ...{ find: told.ofLines, isCause: false, isFault: ALWAYS },
    ...{ shows: lines([FRAME], ofCommandsBack), over: "", sign: "lines" },
    short: () => "The two lines seem exchanged",
    incident: null,
  },
  gap: {
    ...{ find: told.ofGaps, isCause: false, isFault: ({ hole }) => hole?.isGrave ?? false },
    ...{ shows: "stretches", over: "", sign: "gap" },
    short: ({ kind, places: [{ first, past }], rate }) =>
      `Station ${kind.station}: nothing of type ${kind.type} for ${lengthOf(past - first, rate)}`,
    incident: { name: "gap", words: "no commands of type #" },
  },
  silent: {
    ...{ find: told.ofSilent, isCause: false, isFault: ALWAYS },
    ...{ shows: lines([MISSING]), over: "", sign: "silent" },
    short: ({ kind }) => `Station ${kind.station} is silent${kind.type === null ? "" : ` to type ${kind.type}`}`,
    incident: null,
  },
  missing: {
    ...{ find: told.ofMissing, isCause: false, isFault: isManyMissing },
    ...{ shows: lines([MISSING]), over: "", sign: "missing" },
    short: answers("missing"),
    incident: { name: "missing", words: "answers to type # missing" },
  },
  late: {
    ...{ find: told.ofLate, isCause: false, isFault: NEVER, shows: lines([LATE]), over: "", sign: "late" },
    short: answers("late"),
    incident: { name: "late", words: "answers to type # late" },
  },
  slow: {
    ...{ find: slowOf, isCause: false, isFault: NEVER },
    ...{ shows: lines([ANSWERED], ofSlow), over: "", sign: "late" },
    short: answers("far slower than usual"),
    incident: null,
  },
  spoilt: {
    ...{ find: told.ofSpoilt, isCause: false, isFault: NEVER },
    ...{ shows: lines([SPOILT]), over: "", sign: "spoilt" },
    short: answers("spoilt"),
    incident: { name: "spoilt", words: "answers to type # spoilt" },
  },
  damage: {
    ...{ find: told.ofDamage, isCause: false, isFault: NEVER },
    ...{ shows: lines(DAMAGES), over: "", sign: "damage" },
    short: ({ count }) => counted(count, "damaged piece"),
    incident: { name: "burst", words: "burst of damage" },
  },
  length: {
    ...{ find: told.ofLength, isCause: false, isFault: NEVER },
    ...{ shows: lines([FRAME], ofHead(WRONG_LENGTH)), over: "", sign: "length" },
    short: frames("another length than in the dictionary"),
    incident: null,
  },
  unknown: {
    ...{ find: told.ofUnknown, isCause: false, isFault: NEVER },
    ...{ shows: lines([FRAME], ofHead(UNKNOWN)), over: "", sign: "length" },
    short: frames("a type that the dictionary lacks"),
    incident: null,
  },
  stray: {
    ...{ find: told.ofStrays, isCause: false, isFault: NEVER },
    ...{ shows: lines([STRAY]), over: "", sign: "stray" },
    short: ({ count }) => counted(count, "stray"),
    incident: null,
  },
  more: {
    ...{ find: () => [], isCause: false, isFault: NEVER },
    ...{ shows: lines([]), over: "", sign: "more", incident: null },
    short: () => "",
  },
};

/** Their names, in their order. */
export const SORTS = /** @type {Sort[]} */ (Object.keys(FINDINGS));
