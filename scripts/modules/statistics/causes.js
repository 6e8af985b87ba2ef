// Causes of several sentences: each is one sentence in place of these.

import { counted } from "../text.js";
import { FAR, usualGap } from "./gaps.js";
import { REST_SECONDS } from "./rests.js";
import { lengthOf } from "./units.js";

/** @typedef {import("./sentences.js").Seen} Seen */
/** @typedef {import("./sentences.js").Sentence} Sentence */

/**
 * A rest at the end is reported where it is so many times as long as any before, and as the least usual gap of commands.
 * Where no gap is usual yet, it has to last so many seconds.
 */
const REST_TIMES = 3;
const LONG_SECONDS = 1;

/** So many commands in a row without an answer, of all stations, are one sentence. */
const FEWEST_UNANSWERED = 3;

/** So many frames of line 2 in a row without a command are more than a station sends at once. */
const FEWEST_UNHEARD = 4;

/**
 * That nothing came any more before the recording ended, which a listing alone does not show.
 * @param {Seen} seen
 * @returns {Sentence[]}
 */
export function deadEnd({ bus, end }) {
  if (end === null || bus.beside.isAll) return [];
  const { reached, longest, last } = bus.rests;
  const rest = end - reached;
  const usual = bus.commands.sorted().map(([, commands]) => usualGap(commands)).filter((gap) => gap > 0);
  const least = usual.length > 0 ? FAR * Math.min(...usual) : LONG_SECONDS * bus.rate;
  if (last < 0 || rest < least || rest < REST_TIMES * longest || rest < REST_SECONDS * bus.rate) return [];
  const units = bus.units;
  const lines = bus.lines === 1 ? "the line" : "either line";
  const text =
    `Nothing came on ${lines} from ${units.moment(reached)} until the recording ends at ${units.moment(end)}, ` +
    `for ${lengthOf(rest, bus.rate)}. Before, no rest was longer than ${units.duration(longest)}.`;
  /** @param {Sentence} sentence */
  const takes = ({ sort, hole }) => sort === "gap" && hole?.where === "end";
  return [{ sort: "rest", text, count: 1, places: [{ row: last, first: reached, past: end }], takes }];
}

/**
 * That no command was sent at all for a while, of which otherwise each kind of commands has a sentence.
 * @param {Seen} seen
 * @param {Sentence[]} sentences
 * @returns {Sentence[]}
 */
export function quietBus({ bus }, sentences) {
  const found = bus.rests.longestOnes;
  const [longest] = found;
  if (longest === undefined) return [];
  const length = longest.past - longest.first;
  const places = found.filter((rest) => 2 * (rest.past - rest.first) >= length);
  const count = Math.max(places.length, bus.rests.countOf(length / 2));
  /** @param {import("./gaps.js").Gap} gap */
  const isQuiet = (gap) =>
    places.some((rest) => {
      const isWithin = gap.first <= rest.first && rest.past <= gap.first + gap.length;
      return isWithin && (rest === longest || 2 * (rest.past - rest.first) >= gap.length);
    });
  const holes = sentences.flatMap(({ hole }) => (hole !== undefined && hole.where !== "end" ? [hole] : []));
  const own = holes.filter(({ gap, where, isQuiet: isOfRests }) => (isOfRests || where === "begin") && isQuiet(gap));
  if (own.length < 2) return [];
  const more = count > 1 ? ` It was as quiet for half as long or longer ${counted(count - 1, "other time")}.` : "";
  const begin = bus.units.moment(longest.first);
  const text =
    `No command was sent to any station for ${lengthOf(length, bus.rate)} from ${begin} on, ` +
    `of ${counted(own.length, "type")} that otherwise come regularly.${more}`;
  const sorted = [longest, ...places.slice(1).sort((one, other) => one.first - other.first)];
  /** @param {Sentence} sentence */
  const takes = ({ hole }) => hole !== undefined && own.includes(hole);
  return [{ sort: "quiet", text, count, places: sorted, takes }];
}

/**
 * That some of what is wrong is the recording's fault.
 * @param {Seen} seen
 * @returns {Sentence[]}
 */
export function besideSeams({ bus: { beside } }) {
  const { isAll, total, text: what } = beside;
  if (total === 0 && !isAll) return [];
  const [blame, stands] = ["no station is to blame for what is wrong there.", total === 1 ? "stands" : "stand"];
  const text = isAll
    ? `Nothing of this recording is sure: record again${total === 0 ? "." : `. It has ${what}; ${blame}`}`
    : `The recording lacks samples, or has wrong ones, where ${what} ${stands}: ${blame}`;
  const takes = (/** @type {Sentence} */ { sort }) => isAll && sort !== "lines";
  return [{ sort: "beside", text, count: total, places: placesOf(beside), takes }];
}

/**
 * Where the recording is unsure.
 * @param {import("./beside.js").Beside} beside
 */
function placesOf({ stretches }) {
  const known = stretches.filter(({ past }) => past < Infinity);
  return known.map(({ first, past }) => ({ row: -1, first, past: Math.max(past, first + 1) }));
}

/** What damage makes. */
const OF_DAMAGE = new Set(["damage", "spoilt"]);

/** What line of the bus each is. */
const TASKS = { 1: "where commands are", 2: "where answers are" };

/** @param {import("./bus.js").Bus} bus @param {1|2} wanted */
const damagedOn = ({ damage }, wanted) =>
  damage.sorts.filter(({ line }) => line === wanted).reduce((sum, { count }) => sum + count, 0);

/**
 * What is to be looked at where a line has damaged pieces and no frame.
 * @param {import("./bus.js").Bus} bus
 * @param {(1|2)[]} lines
 */
function misread(bus, lines) {
  const pieces = counted(lines.reduce((sum, line) => sum + damagedOn(bus, line), 0), "damaged piece");
  if (lines.length === 2) {
    return (
      `Both lines have ${pieces} and no frame: are the clock and the data of each the right wires, and are the two ` +
      "wires of a pair exchanged?"
    );
  }
  return (
    `Line ${lines[0]}, ${TASKS[lines[0]]}, has ${pieces} and no frame: are its clock and its data the right wires, ` +
    "and are the two wires of a pair exchanged?"
  );
}

/**
 * Lines without a frame, or of which one does not have its own: then no other sentence says more of the wires.
 * @param {Seen} seen
 * @param {Sentence[]} sentences
 * @returns {Sentence[]}
 */
export function wrongWires({ bus }, sentences) {
  if (bus.lines === 1 || bus.beside.isAll || sentences.some(({ sort }) => sort === "lines")) return [];
  const { frames } = bus.alone;
  const damaged = { 1: damagedOn(bus, 1), 2: damagedOn(bus, 2) };
  const dead = /** @type {const} */ ([1, 2]).filter((line) => frames[line] === 0 && bus.beside.lines[line] === 0);
  if (bus.damaged + frames[1] + frames[2] < FEWEST_UNANSWERED) return [];
  if (dead.length < 2) return dead[0] === 2 ? [neverAnswered(bus)] : unheard(bus);
  const text = misread(bus, dead.filter((line) => damaged[line] > 0));
  const takes = (/** @type {Sentence} */ { sort }) => sort === "damage";
  return [{ sort: "wires", text, count: bus.damaged, places: [{ row: 0, first: bus.first, past: bus.first }], takes }];
}

/**
 * That frames come on line 2, and none on line 1, from the beginning, from a time on or for a while.
 * @param {import("./bus.js").Bus} bus
 * @returns {Sentence[]}
 */
function unheard(bus) {
  const { longest, run, frames } = bus.alone;
  if (longest.frames < FEWEST_UNHEARD) return [];
  const { begin, past, damaged, strays } = longest;
  if (bus.beside.isNear(begin?.first ?? bus.first, past ?? bus.past)) return [];
  const isNever = frames[1] === 0;
  const { units } = bus;
  const from = units.moment(begin?.past ?? bus.first);
  const during = longest === run ? ` from ${from} on,` : ` from ${from} to ${units.moment(past ?? 0)},`;
  const when = isNever ? "" : during;
  const text =
    isNever && damagedOn(bus, 1) > 0
      ? misread(bus, [1])
      : `No frame came on line 1, ${TASKS[1]},${when} but ${counted(longest.frames, "frame")} on line 2: ` +
        (isNever ? "was the first pair recorded, and is each of its wires on?" : "is a wire of the first pair loose?");
  const isAllDamage = isNever || damaged === 0;
  /** @param {import("./gaps.js").Gap} gap */
  const isWithin = (gap) => gap.first + gap.length > (begin?.first ?? bus.first) && gap.first < (past ?? Infinity);
  /** @param {Sentence} sentence */
  const takes = ({ sort, count, hole }) =>
    (sort === "stray" && (isNever || count === strays)) || (isAllDamage && OF_DAMAGE.has(sort)) ||
    (hole !== undefined && isWithin(hole.gap));
  const place = begin ?? { row: 0, first: bus.first, past: bus.first };
  return [{ sort: "wires", text, line: 1, count: longest.frames, places: [place], takes }];
}

/**
 * That no station answers any more, or for a while, of which otherwise each station has a sentence.
 * @param {Seen} seen
 * @param {Sentence[]} sentences
 * @returns {Sentence[]}
 */
export function noAnswers({ bus }, sentences) {
  const isNever = bus.lines === 2 && bus.alone.frames[2] === 0;
  if (bus.beside.isAll || sentences.some(({ sort }) => sort === "lines") || isNever) return [];
  const { answers, within, rows, places, ofRows, longest, goesOn } = bus.answers.upTo(bus.past, bus.damaged);
  if (longest === null) return [];
  const { place, total, kinds } = longest;
  const isLast = goesOn && place === places[places.length - 1];
  const { units } = bus;
  const [from, to] = [units.moment(place.first), units.moment(place.past)];
  const when = answers === 0 ? "" : isLast ? ` from ${from} on` : ` from ${from} to ${to}`;
  const stations = counted(new Set(kinds.sorted().map(([{ station }]) => station)).size, "station");
  const others = rows > 1 ? ` So it was ${counted(rows - 1, "other time")}.` : "";
  const cure = isLast ? "" : " Is a wire of the second pair loose?";
  const text = `No station answered${when}: ${counted(total, "command")} in a row, to ${stations}.${others}${cure}`;
  const ofStation = (/** @type {number|undefined} */ wanted) =>
    ofRows.kinds.sorted().reduce((sum, [{ station }, { count }]) => sum + (station === wanted ? count : 0), 0);
  /** @param {Sentence} sentence */
  const isOwn = ({ kind, commands, count }) => {
    if (kind?.type == null) return answers === 0 || ofStation(kind?.station) === count;
    return ofRows.of(kind) === commands?.verdicts.missing;
  };
  const isAllDamage = within === bus.damaged && damagedOn(bus, 2) === bus.damaged;
  /** @param {Sentence} sentence */
  const takes = (sentence) =>
    (isUnanswered(sentence) && isOwn(sentence)) || (isAllDamage && OF_DAMAGE.has(sentence.sort));
  const sorted = [place, ...places.filter((other) => other !== place)];
  return [{ sort: "mute", text, count: rows > 1 ? rows : total, places: sorted, isOver: !isLast, takes }];
}

/**
 * That no frame came on line 2.
 * @param {import("./bus.js").Bus} bus
 * @returns {Sentence}
 */
function neverAnswered(bus) {
  const { first, damaged, answers: { missing } } = bus;
  const own = damagedOn(bus, 2);
  const text =
    own > 0
      ? misread(bus, [2])
      : `No frame came on line 2, ${TASKS[2]}: was the second pair recorded, or does no station answer?`;
  const places = [missing.begin ?? { row: 0, first, past: first }];
  /** @param {Sentence} sentence */
  const isOfDamage = ({ sort }) => (own === damaged && OF_DAMAGE.has(sort)) || (own > 0 && sort === "spoilt");
  /** @param {Sentence} sentence */
  const takes = (sentence) => isUnanswered(sentence) || isOfDamage(sentence);
  return { sort: "mute", text, count: missing.total, places, takes };
}

/** @param {Sentence} sentence */
const isUnanswered = ({ sort }) => sort === "silent" || sort === "missing";
