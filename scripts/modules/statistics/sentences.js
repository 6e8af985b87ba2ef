import { isUnfit } from "../listing/kinds.js";
import { counted } from "../text.js";
import { piecesNamed, sumOf } from "./pieces.js";
import { spanOf } from "./units.js";

// How many kinds are named in a sentence on frames.
const MOST_NAMED = 6;

/**
 * What a sentence is about, and what stands in place of several.
 * @typedef {"lines"|"gap"|"silent"|"missing"|"late"|"slow"|"spoilt"|"damage"|"length"|"unknown"|"stray"|"more"|"rest"|
 *   "quiet"|"mute"|"wires"|"beside"} Sort
 */

/**
 * A sentence, and what it is about.
 * @typedef {object} Sentence
 * @property {Sort} sort
 * @property {string} text as the report has it
 * @property {string} [shown] on a screen, where the text refers to places or to what the report has below
 * @property {{ station: number, type: number|null }|null} [kind] of commands; its type is null where it is all of a station
 * @property {1|2|null} [line] of the bus
 * @property {number} [count] of what it is about
 * @property {import("./commands.js").Commands} [commands] of this kind
 * @property {import("./gaps.js").Hole} [hole]
 * @property {number} [limit] of replies, in bits
 * @property {import("./rests.js").Place[]} [places] of a common cause
 * @property {boolean} [isOver] whether it is a common cause that has come to an end
 * @property {(sentence: Sentence) => boolean} [takes] whether it stands in place of another
 */

/**
 * All that is looked at: what was counted, where the recording ends, the dictionary, and times without a command.
 * @typedef {object} Seen
 * @property {import("./bus.js").Bus} bus
 * @property {number|null} end
 * @property {import("../dictionary/dictionary.js").Entry[]|null} entries
 * @property {import("./gaps.js").Hole[]} gaps
 */

/** @typedef {[import("./kinds.js").Kind, import("./commands.js").Commands]} KindOfCommands */

/** @param {number} count */
const isOrAre = (count) => (count === 1 ? "is" : "are");

/** @param {number[]} numbers */
const sum = (numbers) => numbers.reduce((total, number) => total + number, 0);

/**
 * A type with its name, where the dictionary has one that a draft did not make of the type itself.
 * @param {{ type: number|null }} kind
 * @param {string} name
 */
export function typeNamed(kind, name) {
  const isTold = name !== "" && name !== `type${kind.type}` && !isUnfit(name);
  return isTold ? `type ${kind.type} (${name})` : `type ${kind.type}`;
}

/**
 * What stood in a gap, and what that says.
 * @param {import("./gaps.js").Gap} gap
 * @param {import("./bus.js").Bus} bus
 */
function contentsOf(gap, bus) {
  const damaged = sumOf(gap.damage);
  if (damaged > 0) {
    const lay = damaged === 1 ? "piece lay" : "pieces lay";
    const isOnFirst = gap.damage.some((sort) => sort.line !== 2);
    const meaning = isOnFirst ? "commands may have been destroyed" : "but none on line 1, where commands are";
    return `${damaged} damaged ${lay} within (${piecesNamed(gap.damage)}): ${meaning}.`;
  }
  if (gap.frames !== 0) return "Nothing damaged lay within, but other frames: it seems that none were sent.";
  return `No frame and nothing damaged lay within: the ${bus.lines === 1 ? "line was" : "lines were"} at rest.`;
}

/** Where a gap is, if not between two commands: in the report, and on a screen. */
const ENDS = {
  "": ["", ""],
  begin: [", from the beginning of the listing on", ", from the beginning on"],
  end: [", until the end of the listing", ", until the end"],
};

/**
 * @param {import("./gaps.js").Hole} hole
 * @param {import("./bus.js").Bus} bus
 * @param {import("./units.js").Units} units
 * @returns {Sentence}
 */
function sentenceOfHole(hole, bus, units) {
  const { kind, commands, gap, usual, lacking, others } = hole;
  const [inReport, onScreen] = ENDS[hole.where];
  const stand = others === 1 ? "stands" : "stand";
  const more = others > 0 ? ` ${counted(others, "other gap")} of this kind ${stand} out too.` : "";
  /** @param {string} where */
  const textWith = (where) =>
    `Station ${kind.station} got no ${typeNamed(kind, commands.name)} for ${units.duration(gap.length)}` +
    ` from ${units.moment(gap.first)} on${where}. Usually it gets one each ${units.duration(usual)},` +
    ` so ${lacking} ${isOrAre(lacking)} lacking. ${contentsOf(gap, bus)}${more}`;
  const [text, shown] = [textWith(` (place ${gap.first})${inReport}`), textWith(onScreen)];
  return { sort: "gap", text, shown, kind, line: bus.lines === 1 ? null : 1, count: 1 + others, commands, hole };
}

/** @param {Seen} seen @returns {Sentence[]} */
export const ofGaps = ({ bus, gaps }) => gaps.map((hole) => sentenceOfHole(hole, bus, bus.units));

/**
 * What came in place of answers, if it was another answer.
 * @param {import("./commands.js").Commands} commands
 */
function replacement(commands) {
  const row = commands.replacement;
  if (row === null) return "";
  const name = isUnfit(row.name) ? `, ${row.name}` : "";
  const times = commands.replaced === 1 ? "once" : `${commands.replaced} times`;
  return ` In place of the answer came ${times} another one, last of station ${row.station}, type ${row.type}${name}.`;
}

/**
 * Whether commands of a kind were missed, and none answered.
 * @param {import("./commands.js").Commands} commands
 */
function isSilent(commands) {
  const { answered, late, missing } = commands.verdicts;
  return missing > 0 && answered + late === 0;
}

/**
 * The kinds of commands that asked for an answer, station by station.
 * @param {import("./bus.js").Bus} bus
 */
function byStation(bus) {
  /** @type {Map<number, KindOfCommands[]>} */
  const stations = new Map();
  for (const [kind, commands] of bus.commands.sorted()) {
    if (commands.decided > 0) stations.set(kind.station, [...(stations.get(kind.station) ?? []), [kind, commands]]);
  }
  return stations;
}

/** @param {number} station @param {KindOfCommands[]} kinds @returns {Sentence} */
function sentenceOfSilentStation(station, kinds) {
  const total = sum(kinds.map(([, commands]) => commands.decided));
  const types = kinds.map(([kind, commands]) => typeNamed(kind, commands.name)).join(", ");
  const extra = kinds.map(([, commands]) => replacement(commands)).join("");
  const text = `Station ${station} is silent: it answered none of ${counted(total, "command")}, of ${types}.${extra}`;
  return { sort: "silent", text, kind: { station, type: null }, count: total };
}

/** @param {Seen} seen @returns {Sentence[]} */
export function ofSilent({ bus }) {
  return [...byStation(bus)].flatMap(([station, kinds]) => {
    const quiet = kinds.filter(([, commands]) => isSilent(commands));
    if (quiet.length === kinds.length) return [sentenceOfSilentStation(station, kinds)];
    return quiet.map(([kind, commands]) => {
      const text =
        `Station ${station} answered none of ${counted(commands.decided, "command")} of` +
        ` ${typeNamed(kind, commands.name)}, but others.${replacement(commands)}`;
      return { sort: "silent", text, kind, count: commands.decided, commands };
    });
  });
}

/**
 * The kinds of commands that have a verdict, those first that have it in the greatest share.
 * @param {import("./bus.js").Bus} bus
 * @param {"missing"|"late"|"spoilt"} verdict
 */
function worst(bus, verdict) {
  const having = bus.commands.sorted().filter(([, commands]) => commands.verdicts[verdict] > 0);
  /** @param {KindOfCommands} kind */
  const share = ([, commands]) => commands.verdicts[verdict] / commands.decided;
  return having.sort((one, other) => share(other) - share(one));
}

/**
 * When commands got a verdict: the times of a few, else from the first to the last.
 * @param {import("./commands.js").Times} times
 * @param {import("./units.js").Units} units
 */
function whenOf({ count, places, last }, units) {
  if (count > places.length) return `from ${units.clock(places[0])} to ${units.moment(last)}`;
  return `at ${units.moments(places)}`;
}

/** @param {Seen} seen @returns {Sentence[]} */
export function ofMissing({ bus }) {
  const { units } = bus;
  const some = worst(bus, "missing").filter(([, commands]) => !isSilent(commands));
  return some.map(([kind, commands]) => {
    const { missing } = commands.verdicts;
    const run = commands.longestSilence;
    const row = run.commands > 1 ? `, ${run.commands} in a row from ${units.moment(run.first)} on` : "";
    const when = run.commands < missing || missing === 1 ? `, ${whenOf(commands.times.missing, units)}` : "";
    const what =
      `Station ${kind.station} gave no answer to ${missing} of ${counted(commands.decided, "command")} of` +
      ` ${typeNamed(kind, commands.name)}`;
    const other = replacement(commands);
    const [text, shown] = [`${what}${when}${row}.${other}`, `${what}${row}.${other}`];
    return { sort: "missing", text, shown, kind, count: missing, commands };
  });
}

/** @param {import("./commands.js").Commands} commands @param {import("./units.js").Units} units */
function repliesOfLate(commands, units) {
  if (commands.late.total === 0) return "";
  const { inTime } = commands;
  const others = inTime.total > 0 ? `in time after ${spanOf(inTime, units)}` : "none in time";
  return `: after ${spanOf(commands.late, units)}; ${others}`;
}

/** @param {Seen} seen @returns {Sentence[]} */
export function ofLate({ bus }) {
  const { units } = bus;
  return worst(bus, "late").map(([kind, commands]) => {
    const { late } = commands.verdicts;
    const what =
      `Station ${kind.station} answered ${late} of ${counted(commands.decided, "command")} of` +
      ` ${typeNamed(kind, commands.name)} late`;
    const [when, replies] = [whenOf(commands.times.late, units), repliesOfLate(commands, units)];
    const [text, shown] = [`${what}, ${when}${replies}.`, `${what}${replies}.`];
    return { sort: "late", text, shown, kind, count: late, commands };
  });
}

/** @param {Seen} seen @returns {Sentence[]} */
export function ofSpoilt({ bus }) {
  return worst(bus, "spoilt").map(([kind, commands]) => {
    const numbered = /** @type {const} */ ([1, 2]).filter((line) => commands.spoiltBy.has(line));
    const lines = numbered.map((line) => `${commands.spoiltBy.get(line)} on line ${line}`).join(" and ");
    const { spoilt } = commands.verdicts;
    const text =
      `Of station ${kind.station}'s answers to ${counted(commands.decided, "command")} of` +
      ` ${typeNamed(kind, commands.name)} ${spoilt} may have been spoilt: damage came first` +
      (lines === "" ? "." : ` (${lines}).`);
    return { sort: "spoilt", text, kind, count: spoilt, commands };
  });
}

/** @param {import("./kinds.js").Counts} counts */
function kindsCounted(counts) {
  const most = counts.first(MOST_NAMED);
  return most.map(([{ station, type }, count]) => `station ${station} type ${type}: ${count}`).join(", ");
}

/** @param {Seen} seen @returns {Sentence[]} */
export function ofDamage({ bus: { damaged } }) {
  const text = `${counted(damaged, "piece")} ${isOrAre(damaged)} damaged`;
  return damaged === 0 ? [] : [{ sort: "damage", count: damaged, text: `${text}; see below.`, shown: `${text}.` }];
}

/**
 * @param {Sort} sort
 * @param {import("./kinds.js").Counts} counts
 * @param {string} what they are
 * @returns {Sentence[]}
 */
function sentencesOfFrames(sort, counts, what) {
  return counts.total === 0 ? [] : [{ sort, count: counts.total, text: `${what}, most of ${kindsCounted(counts)}.` }];
}

/** @param {Seen} seen */
export const ofLength = ({ bus: { misfits: { length } } }) =>
  sentencesOfFrames("length", length, `${counted(length.total, "frame")} of another length than in the dictionary`);

/** @param {Seen} seen */
export const ofUnknown = ({ bus: { misfits: { unknown } } }) =>
  sentencesOfFrames("unknown", unknown, `${counted(unknown.total, "frame")} of a type that it lacks`);

/** @param {Seen} seen */
export const ofStrays = ({ bus: { strays } }) =>
  sentencesOfFrames("stray", strays, `${counted(strays.total, "stray")}, frames of answers to no command`);

/** Lines that are exchanged read well: where much is damaged, data is read with the clock of the other line. */
const MUCH_DAMAGE = 0.1;

/** @param {Seen} seen @returns {Sentence[]} */
export function ofLines({ bus }) {
  const forward = sum(bus.commands.sorted().map(([, commands]) => commands.sent));
  if (Math.max(bus.backward, bus.answersOnFirst) <= forward) return [];
  const isOfData = bus.backward <= forward || bus.damaged > MUCH_DAMAGE * bus.frames;
  const what = isOfData ? "data wires of the two pairs" : "two lines";
  const isOnFirst = bus.backward <= forward;
  const [count, line] = isOnFirst ? [counted(bus.answersOnFirst, "answer"), 1] : [counted(bus.backward, "command"), 2];
  const text = `${count} came on line ${line}: are the ${what} exchanged?`;
  return [{ sort: "lines", text, line: isOnFirst ? 1 : 2, count: isOnFirst ? bus.answersOnFirst : bus.backward }];
}

/**
 * How much was listed: seconds, lines, frames and damaged pieces.
 * @param {import("./bus.js").Bus} bus
 * @returns {string}
 */
export function headLine(bus) {
  const what = bus.lines === 1 ? "one line" : "two lines";
  const begin = bus.dayTime === null ? "" : ` It begins on ${bus.dayTime.full(bus.first / bus.rate)}.`;
  return (
    `${bus.units.seconds(bus.past - bus.first)} s of ${what} at ${bus.rate} bits a second:` +
    ` ${counted(bus.frames, "frame")}, ${counted(bus.damaged, "damaged piece")}.${begin}`
  );
}
