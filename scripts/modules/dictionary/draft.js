import { Fault } from "../fault.js";
import { DAMAGE } from "../listing/kinds.js";
import { ALL_STATIONS, ANSWER, AROUND } from "../port1.js";
import { counted } from "../text.js";
import { LEAST_WINDOW, MOST_WINDOW } from "./dictionary.js";

/** @typedef {import("../statistics/bus.js").Row} Row */

// The most stations, or ranges of them, and the most lengths that a comment names.
const MOST_NAMED = 16;

const HEAD =
  "# Drafted from a listing: numbers, lengths and `answered` are as seen there, the names are to be given by hand.\n" +
  "version = 2\n";

/**
 * What was seen of a frame type.
 * @typedef {object} Seen
 * @property {number} frames
 * @property {Map<number, number>} lengths how many frames have which length
 * @property {Set<number>} stations
 * @property {number} replies of a command: how many answers came
 * @property {number} longest of a command: the longest time to an answer, in bits
 */

/** @returns {Seen} */
const nothingSeen = () => ({ frames: 0, lengths: new Map(), stations: new Set(), replies: 0, longest: 0 });

/**
 * Whether a typed frame answers what stood before it on the line.
 * @param {Row} row
 * @param {Row|null} before
 */
function isAnswer(row, before) {
  if (before === null || before.type === null || before.station === ALL_STATIONS) return false;
  const isOnItsLine = before.line !== 2 && row.line !== 1;
  return isOnItsLine && before.type < ANSWER && before.station === row.station && before.type + ANSWER === row.type;
}

/**
 * What was seen of each type, as rows of a listing come, and how many frames have none. What stands on the line before
 * a frame may be its command.
 */
export class Survey {
  constructor() {
    /** @type {Map<number, Seen>} */
    this.types = new Map();
    this.untyped = 0;
    /** @type {Row|null} */
    this.before = null;
  }

  /** @param {Row} row */
  countFrame(row) {
    if (row.type === null || row.station === null) {
      this.untyped += 1;
      return;
    }
    const seen = this.types.get(row.type) ?? nothingSeen();
    this.types.set(row.type, seen);
    const length = (row.octets?.length ?? 0) - AROUND;
    seen.frames += 1;
    seen.lengths.set(length, (seen.lengths.get(length) ?? 0) + 1);
    seen.stations.add(row.station);
    const { before } = this;
    const command = before?.type == null ? undefined : this.types.get(before.type);
    if (before && command && isAnswer(row, before)) {
      command.replies += 1;
      command.longest = Math.max(command.longest, row.first - before.past);
    }
  }

  /**
   * Counts the next rows of a listing.
   * @param {Iterable<Row>} rows
   */
  takeSome(rows) {
    for (const row of rows) {
      if (row.kind === "frame") {
        this.countFrame(row);
        this.before = row;
      } else if (DAMAGE.includes(row.kind)) {
        this.before = row;
      }
    }
  }
}

/**
 * Numbers in order, those without a gap between them put together.
 * @param {number[]} numbers
 */
function ranges(numbers) {
  /** @type {{ first: number, last: number }[]} */
  const runs = [];
  for (const number of numbers) {
    const run = runs.at(-1);
    if (run !== undefined && number === run.last + 1) {
      run.last = number;
    } else {
      runs.push({ first: number, last: number });
    }
  }
  return runs.flatMap(({ first, last }) => {
    if (last > first + 1) return [`${first} to ${last}`];
    return first === last ? [String(first)] : [String(first), String(last)];
  });
}

/**
 * The first of these, and how many there are beside.
 * @param {string[]} texts
 */
function named(texts) {
  const shown = texts.slice(0, MOST_NAMED).join(", ");
  return texts.length <= MOST_NAMED ? shown : `${shown} and ${texts.length - MOST_NAMED} more`;
}

/**
 * The lengths of a type with their counts, the most frequent first, of several the longest.
 * @param {Seen} seen
 */
const lengthsOf = (seen) => [...seen.lengths].sort((one, other) => other[1] - one[1] || other[0] - one[0]);

/**
 * What is to be said where the other half of command and answer was not seen.
 * @param {number} type
 * @param {Map<number, Seen>} types
 */
function remarksOnPair(type, types) {
  if (type < ANSWER && !types.has(type + ANSWER)) {
    return [`Not marked as answered: no frame of type ${type + ANSWER} was seen.`];
  }
  return type >= ANSWER && !types.has(type - ANSWER) ? [`No command of type ${type - ANSWER} was seen.`] : [];
}

/** @param {number} type @param {Map<number, Seen>} types */
function remarks(type, types) {
  const seen = /** @type {Seen} */ (types.get(type));
  const way = type >= ANSWER ? "from" : "to";
  const stations = seen.stations.size === 1 ? "station" : "stations";
  const numbers = named(ranges([...seen.stations].sort((one, other) => one - other)));
  const lengths = lengthsOf(seen).map(([length, count]) => `${length} in ${counted(count, "frame")}`);
  return [
    `${counted(seen.frames, "frame")}, ${way} ${stations} ${numbers}.`,
    ...(lengths.length > 1 ? [`THE LENGTHS DIFFER: ${named(lengths)}.`] : []),
    ...remarksOnPair(type, types),
  ];
}

/**
 * What helps to choose a window for a command that is answered.
 * @param {Seen} seen
 */
function windowLines({ replies, longest }) {
  if (replies === 0) return ["# No answer came as the next thing after its command."];
  const answers = replies === 1 ? "the one answer" : `all ${replies} answers`;
  const time = counted(longest, "bit");
  const told = `# The longest time from a command to its answer was ${time}; ${answers} began within it.`;
  return longest <= MOST_WINDOW ? [told, `# window = ${Math.max(longest, LEAST_WINDOW)}`] : [told];
}

/**
 * The entry of a type, with its comments.
 * @param {number} type
 * @param {Map<number, Seen>} types
 */
function entryText(type, types) {
  const seen = /** @type {Seen} */ (types.get(type));
  const lines = [
    ...remarks(type, types).map((remark) => `# ${remark}`),
    ...["[[frame]]", `type = ${type}`, `name = "type${type}"`, `length = ${lengthsOf(seen)[0][0]}`],
    ...(types.has(type + ANSWER) ? ["answered = true", ...windowLines(seen)] : []),
  ];
  return `\n${lines.map((line) => `${line}\n`).join("")}`;
}

/**
 * The text of a first dictionary, as `draft-dictionary` writes it: each command with its answer after it.
 * @param {Survey} survey
 * @returns {string}
 * @throws {Fault} where there is no typed frame
 */
export function draftOfSurvey({ types, untyped }) {
  if (types.size === 0) throw new Fault("the listing has no frame of a type");
  const frames = counted(untyped, "frame");
  const left = untyped > 0 ? `# Left out: ${frames} with another control octet than 131, or without a type.\n` : "";
  const numbers = [...types.keys()].sort((one, other) => (one % ANSWER) - (other % ANSWER) || one - other);
  return HEAD + left + numbers.map((type) => entryText(type, types)).join("");
}

/**
 * The text of a first dictionary of the frame types that a listing has.
 * @param {Iterable<Row>} rows
 * @returns {string}
 * @throws {Fault} where there is no typed frame
 */
export function draftOf(rows) {
  const survey = new Survey();
  survey.takeSome(rows);
  return draftOfSurvey(survey);
}
