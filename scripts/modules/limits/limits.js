import { readToml } from "../dictionary/toml.js";
import { TomlFault } from "../dictionary/toml/source.js";
import { Fault } from "../fault.js";
import { ANSWER } from "../port1.js";

/** @typedef {ReturnType<typeof import("../statistics/object.js").objectOf>} Statistics */
/** @typedef {Statistics["kinds"][number]} KindStatistics */
/** @typedef {(string|number)[]} Path of keys, and of places in arrays */

/**
 * A limit: what it limits, what it reads of the statistics (null: nothing to judge), its unit, whether it is a least,
 * and whether it needs verdicts.
 * @template Seen
 * @typedef {{ text: string, of(seen: Seen): number|null, unit: string, isLeast?: boolean, isJudged?: boolean }} Measure
 */

/**
 * @param {string} text
 * @param {"missing"|"late"|"spoilt"|"badPercent"} key
 * @returns {Measure<KindStatistics>}
 */
const verdicts = (text, key) => {
  return { text, of: (kind) => (kind.decided > 0 ? kind[key] : null), unit: "", isJudged: true };
};

/** @type {Record<string, Measure<Statistics>>} */
export const BUS = {
  frames: { text: "frames", of: ({ frames }) => frames, unit: "", isLeast: true },
  damaged: { text: "damaged pieces", of: ({ damaged }) => damaged, unit: "" },
  strays: { text: "strays", of: ({ strays }) => strays, unit: "", isJudged: true },
  pending: { text: "commands that still wait at the end", of: ({ pending }) => pending, unit: "", isJudged: true },
  damaged_percent: { text: "share of damaged pieces", of: ({ damagedPercent }) => damagedPercent, unit: "%" },
};

/** @type {Record<string, Measure<KindStatistics>>} */
export const KIND = {
  sent: { text: "commands", of: ({ sent }) => sent, unit: "", isLeast: true },
  missing: verdicts("missing answers", "missing"),
  late: verdicts("late answers", "late"),
  spoilt: verdicts("spoilt answers", "spoilt"),
  bad_percent: { ...verdicts("share of missing, late and spoilt answers", "badPercent"), unit: "%" },
  reply_99_ms: { text: "99 % of replies within", of: ({ replyMs }) => replyMs.percent99, unit: "ms", isJudged: true },
  reply_longest_ms: { text: "longest reply", of: ({ replyMs }) => replyMs.longest, unit: "ms", isJudged: true },
  gap_ms: { text: "longest gap between commands", of: ({ gapMs }) => gapMs.longest, unit: "ms" },
};

/**
 * A number that is not below 0, as TOML has it, or nothing.
 * @param {unknown} value
 */
function numberOf(value) {
  const number = typeof value === "bigint" ? Number(value) : value;
  return typeof number === "number" && Number.isFinite(number) && number >= 0 ? number : null;
}

/** Reads tables of limits, and names what is wrong by its line and key. */
class Reader {
  /** @param {string} file @param {import("../dictionary/toml/places.js").Place} place */
  constructor(file, place) {
    this.file = file;
    this.place = place;
  }

  /** @param {Path} path @param {string} text */
  fault(path, text) {
    const key = path.filter((part) => typeof part === "string").at(-1) ?? "limits";
    return new Fault(`${this.file}:${this.place.lineOf(path)}: ${key}: ${text}`);
  }

  /** @param {unknown} value @param {Path} path @returns {Map<string, unknown>} */
  table(value, path) {
    if (!(value instanceof Map)) throw this.fault(path, "is no table");
    return value;
  }

  /**
   * The limits of a table, of these measures.
   * @param {Iterable<[string, unknown]>} table
   * @param {Path} path
   * @param {Record<string, { unit: string }>} measures
   */
  limits(table, path, measures) {
    return [...table].map(([key, value]) => {
      const own = [...path, key];
      const keys = Object.keys(measures);
      if (!keys.includes(key)) throw this.fault(own, `is no limit; limits are ${keys.join(", ")}`);
      const limit = numberOf(value);
      if (limit === null) throw this.fault(own, "is no number from 0");
      if (measures[key].unit === "%" && limit > 100) throw this.fault(own, "is above 100 %");
      return { key, limit };
    });
  }

  /** @param {Map<string, unknown>} table @param {Path} path @param {string} key @param {number} past */
  whole(table, path, key, past) {
    const value = table.get(key);
    if (value === undefined) return null;
    const isGood = typeof value === "bigint" && value >= 0n && value < past;
    if (!isGood) throw this.fault([...path, key], `is no whole number below ${past}`);
    return Number(value);
  }

  /**
   * The limits of one station and type, or of each for what is left out.
   * @param {unknown} value
   * @param {Path} path
   */
  kind(value, path) {
    const table = this.table(value, path);
    const station = this.whole(table, path, "station", 256);
    const type = this.whole(table, path, "type", ANSWER);
    const others = [...table].filter(([key]) => key !== "station" && key !== "type");
    const limits = this.limits(others, path, KIND);
    if (limits.length === 0) throw this.fault(path, `${whereOf({ station, type })} has no limit`);
    return { station, type, limits };
  }
}

/**
 * The commands of a table, as words: of a station and type, or of each for what is null.
 * @param {{ station: number|null, type: number|null }} commands
 */
export function whereOf({ station, type }) {
  if (station === null) return type === null ? "each station and type" : `type ${type} of each station`;
  return type === null ? `each type of station ${station}` : `station ${station} type ${type}`;
}

/** @param {string} file @param {string} text */
function documentOf(file, text) {
  try {
    return readToml(text);
  } catch (fault) {
    throw fault instanceof TomlFault ? new Fault(`${file}:${fault.line}: ${fault.message}`) : fault;
  }
}

/**
 * The limits of a file.
 * @param {string} file its name, for faults
 * @param {string} text
 */
export function limitsOf(file, text) {
  const { table, place } = documentOf(file, text);
  const reader = new Reader(file, place);
  const other = [...table.keys()].find((key) => key !== "bus" && key !== "limit");
  if (other !== undefined) throw reader.fault([other], "is neither `bus` nor `limit`");
  const bus = table.has("bus") ? reader.limits(reader.table(table.get("bus"), ["bus"]), ["bus"], BUS) : [];
  const list = table.get("limit") ?? [];
  if (!Array.isArray(list)) throw reader.fault(["limit"], "is no array of tables: write [[limit]]");
  const kinds = list.map((value, at) => reader.kind(value, ["limit", at]));
  kinds.forEach(({ station, type }, at) => {
    const isBefore = kinds.slice(0, at).some((kind) => kind.station === station && kind.type === type);
    if (isBefore) throw reader.fault(["limit", at], `${whereOf({ station, type })} stands there twice`);
  });
  if (bus.length + kinds.length === 0) throw reader.fault([], "there is no limit");
  return { bus, kinds };
}

/** @typedef {ReturnType<typeof limitsOf>} Limits */
