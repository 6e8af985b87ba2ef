import { Fault } from "../fault.js";
import { readDictionary } from "./dictionary.js";
import { faultsBySchema } from "./schema.js";
import { TomlFault, readToml } from "./toml.js";

/** @typedef {import("./schema.js").Asked} Asked */
/** @typedef {import("./schema.js").Schema} Schema */
/** @typedef {import("./toml/places.js").Place} Place */
/** @typedef {import("./toml/tables.js").Table} Table */

/**
 * A fault or a remark, and the line that it is about.
 * @typedef {{line: number, text: string, isFault: boolean}} Remark
 */

/**
 * What judges a whole dictionary: it gives the fault that the program finds, as the program says it, or nothing.
 * @typedef {(text: string) => string|undefined} Judge
 */

// What the types of a schema are called in TOML.
const KINDS = {
  array: "array",
  boolean: "`true` or `false`",
  integer: "whole number",
  object: "table",
  string: "text in quotes",
};

// How much of a value is shown.
const SHOWN = 60;

// What the reader says of a dictionary: of an entry, by its number, or of a frame type.
const JUDGEMENT = /^dictionary: ((?:frame (\d+)|type (\d+)( twice)?)?.*)/;

/** @param {number} line @param {string} text @returns {Remark} */
const fault = (line, text) => ({ line, text, isFault: true });

/** @param {number} line @param {string} text @returns {Remark} */
const remark = (line, text) => ({ line, text, isFault: false });

/**
 * A part of a dictionary, as `frame 2: bits 1: at: `.
 * @param {readonly (string|number)[]} path
 */
function label(path) {
  /** @type {string[]} */
  const texts = [];
  for (const part of path) {
    if (typeof part === "number" && texts.length > 0) {
      texts.push(`${texts.pop()} ${part + 1}`);
    } else {
      texts.push(String(part));
    }
  }
  return texts.map((text) => `${text}: `).join("");
}

/**
 * A value as TOML writes it: 16.0 is no whole number.
 * @param {unknown} value
 * @returns {string}
 */
function valueText(value) {
  if (Array.isArray(value)) return `[${value.map(valueText).join(", ")}]`;
  if (value instanceof Map) return `{${[...value].map(([key, inner]) => `${key} = ${valueText(inner)}`).join(", ")}}`;
  if (typeof value === "string") return JSON.stringify(value);
  return Number.isInteger(value) ? /** @type {number} */ (value).toFixed(1) : String(value);
}

/** @param {unknown} value */
function shown(value) {
  const text = valueText(value);
  return text.length <= SHOWN ? text : `${text.slice(0, SHOWN)}..`;
}

/**
 * How many letters are to be put in, left out or replaced to make one word another.
 * @param {string} one
 * @param {string} other
 */
function editsBetween(one, other) {
  let row = Array.from({ length: other.length + 1 }, (_, at) => at);
  for (const letter of one) {
    const next = [row[0] + 1];
    for (let at = 0; at < other.length; at++) {
      next.push(Math.min(row[at] + (letter === other[at] ? 0 : 1), row[at + 1] + 1, next[at] + 1));
    }
    row = next;
  }
  return row[other.length];
}

/**
 * A known key that may be meant by an unknown one: fewer than half of their letters differ.
 * @param {string} key
 * @param {string[]} known
 */
function unknownKey(key, known) {
  const near = known.find((word) => 2 * editsBetween(key, word) < Math.max(key.length, word.length));
  return `unknown key \`${key}\`${near === undefined ? "" : `; is \`${near}\` meant?`}`;
}

/**
 * What a fault by the schema means.
 * @type {{ [Keyword in keyof Schema]?: (found: import("./schema.js").SchemaFault<Asked[Keyword]>) => string }}
 */
const COMPLAINTS = {
  type: ({ value, asked }) => `${shown(value)} is no ${KINDS[asked]}`,
  minimum: ({ value, schema }) => `${shown(value)} is not ${schema.minimum} to ${schema.maximum}`,
  maximum: ({ value, schema }) => `${shown(value)} is not ${schema.minimum} to ${schema.maximum}`,
  pattern: ({ value }) => `${shown(value)} is not 1 to 40 printable ASCII characters without spaces`,
  enum: ({ value, asked }) => `${shown(value)} is not ${asked.join(" or ")}`,
  required: ({ value, asked }) => {
    const missing = asked.filter((key) => !/** @type {Table} */ (value).has(key));
    return `there is no ${missing.map((key) => `\`${key}\``).join(" and no ")}`;
  },
  minItems: () => "there is no entry",
};

/** @param {Table} table @param {Place} place @param {Schema} schema */
function findingsOfSchema(table, place, schema) {
  return faultsBySchema(table, schema).flatMap((found) => {
    const { keyword, path } = found;
    const value = /** @type {Table} */ (found.value);
    if (keyword !== "additionalProperties") {
      const complaint = /** @type {(found: import("./schema.js").SchemaFault) => string} */ (COMPLAINTS[keyword]);
      return [fault(place.lineOf(path), label(path) + complaint(found))];
    }
    const known = Object.keys(/** @type {import("./schema.js").Schemas} */ (found.schema.properties));
    const keys = [...value.keys()].filter((key) => !known.includes(key));
    return keys.map((key) => fault(place.lineOf([...path, key]), label(path) + unknownKey(key, known)));
  });
}

/**
 * The entries that are tables at all, or empty tables in their places.
 * @param {Table} table
 * @returns {Table[]}
 */
function tablesOfFrames(table) {
  const frames = table.get("frame");
  const entries = Array.isArray(frames) ? frames : [];
  return entries.map((entry) => (entry instanceof Map ? entry : new Map()));
}

/** @param {Table} table @param {Place} place */
function remarks(table, place) {
  const version = table.get("version");
  return tablesOfFrames(table).flatMap((entry, at) => {
    const [type, name] = [entry.get("type"), entry.get("name")];
    if (typeof type !== "bigint" || typeof name !== "string") return [];
    const what = `frame ${at + 1}: remark: type ${type} (${name})`;
    if (version === 2n && entry.get("answered") === true && !entry.has("window")) {
      const text = `${what} is answered and has no window: no answer to it is ever late`;
      return [remark(place.lineOf(["frame", at]), text)];
    }
    if (version === 1n && entry.has("window")) {
      const text = `${what} has a window, which means nothing in version 1`;
      return [remark(place.lineOf(["frame", at, "window"]), text)];
    }
    return [];
  });
}

/**
 * The entry that a judgement speaks of; of a type that comes twice, the second one.
 * @param {(string|undefined)[]} judgement
 * @param {Table} table
 */
function pathOfJudgement([, , number, type, twice], table) {
  if (number !== undefined) return ["frame", Number(number) - 1];
  const entries = [...tablesOfFrames(table).entries()];
  const having = entries.filter(([, entry]) => type !== undefined && entry.get("type") === BigInt(type));
  if (having.length === 0) return [];
  return ["frame", having[twice === undefined ? 0 : 1][0]];
}

/**
 * The fault that the program's rules find, as it says it; nothing where the dictionary is good.
 * @param {string} text
 */
function judgement(text) {
  try {
    readDictionary(text);
    return undefined;
  } catch (found) {
    if (found instanceof Fault) return found.message;
    throw found;
  }
}

/** @param {string} text @param {Table} table @param {Place} place @param {Judge} judge */
function findingsOfProgram(text, table, place, judge) {
  const said = judge(text.replace(/\n+$/, ""));
  if (said === undefined) return [];
  const found = JUDGEMENT.exec(said) ?? ["", said];
  const advice = text.includes("\r") ? "; the lines end with CR LF: `tr -d '\\r'` takes the CR away" : "";
  return [fault(place.lineOf(pathOfJudgement(found, table)), `port1 says: ${found[1]}${advice}`)];
}

/**
 * In the order of the lines, and each only once.
 * @param {Remark[]} findings
 */
function inOrder(findings) {
  const once = new Map(findings.map((finding) => [JSON.stringify(finding), finding]));
  return [...once.values()].sort((one, other) => one.line - other.line);
}

/**
 * What is found in the text of a dictionary, in the order of its lines.
 * @param {string} text
 * @param {Schema} schema examples/dictionary.schema.json
 * @param {Judge} [judge]
 * @returns {Remark[]}
 */
export function remarksOf(text, schema, judge = judgement) {
  let read;
  try {
    read = readToml(text);
  } catch (found) {
    if (found instanceof TomlFault) return [fault(found.line, `not TOML: ${found.message}`)];
    throw found;
  }
  const { table, place } = read;
  return inOrder([
    ...findingsOfSchema(table, place, schema),
    ...findingsOfProgram(text, table, place, judge),
    ...remarks(table, place),
  ]);
}

/**
 * The first line that is no UTF-8; 0 where there is none.
 * @param {Uint8Array} octets
 */
function spoiltLine(octets) {
  const decoder = new TextDecoder("utf-8", { fatal: true });
  for (let [line, begin] = [1, 0]; begin <= octets.length; line += 1) {
    const found = octets.indexOf(0x0a, begin);
    const end = found < 0 ? octets.length : found;
    try {
      decoder.decode(octets.subarray(begin, end));
    } catch {
      return line;
    }
    begin = end + 1;
  }
  return 0;
}

/**
 * What is found in a file of a dictionary.
 * @param {Uint8Array} octets
 * @param {Schema} schema examples/dictionary.schema.json
 * @param {Judge} [judge]
 * @returns {Remark[]}
 */
export function remarksOfFile(octets, schema, judge = judgement) {
  const line = spoiltLine(octets);
  const text = () => new TextDecoder("utf-8", { ignoreBOM: true }).decode(octets);
  return line > 0 ? [fault(line, "not UTF-8")] : remarksOf(text(), schema, judge);
}
