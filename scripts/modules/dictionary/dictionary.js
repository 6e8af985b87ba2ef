import { Fault } from "../fault.js";
import { ANSWER } from "../port1.js";
import { TomlFault, readToml } from "./toml.js";

/**
 * A frame type of a dictionary.
 * @typedef {object} Entry
 * @property {number} type
 * @property {string} name
 * @property {number} length octets after the type, without the check
 * @property {boolean} answered
 * @property {number} window bits, or 0 for no limit
 * @property {{at: number, name: string}[]} bits by place
 */

const NAME = /^[!-~]{1,40}$/;

const TYPES = 256;
const LENGTHS = 254;

/** The windows that an entry may have, in bits. */
export const LEAST_WINDOW = 8;
export const MOST_WINDOW = 1_048_576;

/** @param {string} text */
const faultOf = (text) => new Fault(`dictionary: ${text}`);

/**
 * The value at a key, where it is in a table that has the key.
 * @param {unknown} table
 * @param {string} key
 * @returns {unknown}
 */
const valueAt = (table, key) => (table instanceof Map ? table.get(key) : undefined);

/**
 * The integer at a key from 0 on, below a limit; else nothing.
 * @param {unknown} table
 * @param {string} key
 * @param {number} limit
 */
function numberAt(table, key, limit) {
  const value = valueAt(table, key);
  return typeof value === "bigint" && value >= 0n && value < limit ? Number(value) : undefined;
}

/**
 * The name in a table; nothing where it is none.
 * @param {unknown} table
 */
function nameAt(table) {
  const value = valueAt(table, "name");
  return typeof value === "string" && NAME.test(value) ? value : undefined;
}

/**
 * Whether frames of a type are to be answered; nothing where what is said of it is not allowed.
 * @param {unknown} table
 * @param {number} type
 */
function answeredAt(table, type) {
  const value = valueAt(table, "answered") ?? false;
  return typeof value !== "boolean" || (value && type >= ANSWER) ? undefined : value;
}

/**
 * The window of an entry, or 0; nothing where what is said of it is not allowed.
 * @param {unknown} table
 * @param {1n|2n} version
 * @param {boolean} answered
 */
function windowAt(table, version, answered) {
  const value = valueAt(table, "window");
  if (value === undefined || version !== 2n) return 0;
  const isGood = typeof value === "bigint" && value >= LEAST_WINDOW && value <= MOST_WINDOW;
  return isGood && answered ? Number(value) : undefined;
}

/**
 * The bits of an entry by their places; nothing where what is said of them is not allowed.
 * @param {unknown} table
 * @param {number} length
 */
function bitsAt(table, length) {
  const members = valueAt(table, "bits") ?? [];
  if (!Array.isArray(members)) return undefined;
  const bits = members.map((member) => ({ at: numberAt(member, "at", 8 * length), name: nameAt(member) }));
  const isGood = bits.every(({ at, name }) => at !== undefined && name !== undefined);
  const isOnce = new Set(bits.map(({ at }) => at)).size === bits.length;
  return isGood && isOnce ? bits.sort((one, other) => Number(one.at) - Number(other.at)) : undefined;
}

/**
 * What is good, or the fault that entry number so and so has a bad part.
 * @template T
 * @param {T|undefined} value
 * @param {number} number
 * @param {string} part
 * @returns {T}
 */
function needed(value, number, part) {
  if (value === undefined) throw faultOf(`frame ${number}: bad ${part}`);
  return value;
}

/**
 * @param {unknown} table
 * @param {number} number
 * @param {1n|2n} version
 * @param {Set<number>} types of the entries before
 * @returns {Entry}
 */
function entryOf(table, number, version, types) {
  const type = needed(numberAt(table, "type", TYPES), number, "type");
  const name = needed(nameAt(table), number, "name");
  const length = needed(numberAt(table, "length", LENGTHS), number, "length");
  const answered = needed(answeredAt(table, type), number, "answered");
  const window = needed(windowAt(table, version, answered), number, "window");
  const bits = /** @type {Entry["bits"]} */ (needed(bitsAt(table, length), number, "bit"));
  if (types.has(type)) throw faultOf(`type ${type} twice`);
  types.add(type);
  return { type, name, length, answered, window, bits };
}

/**
 * The root table of a text.
 * @param {string} text
 */
function rootOf(text) {
  try {
    return readToml(text).table;
  } catch (fault) {
    throw fault instanceof TomlFault ? faultOf("not TOML") : fault;
  }
}

/**
 * The entries of a dictionary, in the order of its text.
 * @param {string} text
 * @returns {Entry[]}
 * @throws {Fault} the first fault, as `port1` says it
 */
export function readDictionary(text) {
  const root = rootOf(text);
  const version = root.get("version");
  if (version !== 1n && version !== 2n) throw faultOf("version is not 1 or 2");
  const frames = root.get("frame");
  if (!Array.isArray(frames) || frames.length === 0) throw faultOf("no frames");
  /** @type {Set<number>} */
  const types = new Set();
  const entries = frames.map((frame, at) => entryOf(frame, at + 1, version, types));
  const lacking = entries.find(({ type, answered }) => answered && !types.has(type + ANSWER));
  if (lacking !== undefined) throw faultOf(`type ${lacking.type} has no answer entry`);
  return entries;
}
