import { Place } from "./toml/places.js";
import { readScalar } from "./toml/scalars.js";
import { Source } from "./toml/source.js";
import { readKey, readString } from "./toml/strings.js";
import { Tables } from "./toml/tables.js";

export { DateTime } from "./toml/scalars.js";
export { TomlFault } from "./toml/source.js";

/**
 * A document that has been read. Tables are maps in the order of the text; integers are BigInts and floats numbers, so
 * that 16.0 is no integer; dates and times are a DateTime.
 * @typedef {{table: Table, place: Place}} Document
 */

/** @typedef {import("./toml/tables.js").Table} Table */

/**
 * The table into which pairs go, the head that names it, and where it stands.
 * @typedef {{table: Table, head: string[], place: Place}} Section
 */

/**
 * A value; what is within an array or a table has the same types.
 * @typedef {string|boolean|bigint|number|import("./toml/scalars.js").DateTime|unknown[]|Table} Value
 */

/**
 * Reads what stands in brackets, for which there has to be room.
 * @template T
 * @param {Source} source
 * @param {() => T} read
 */
function nested(source, read) {
  if (source.room === 0) throw source.fault("brackets too deep in one another");
  source.room -= 1;
  source.at += 1;
  const value = read();
  source.room += 1;
  return value;
}

/** @param {Source} source @param {Place} place */
function readArray(source, place) {
  /** @type {Value[]} */
  const values = [];
  source.skipLines();
  while (!source.takes("]")) {
    const own = place.part(values.length);
    own.note(source.lineAt(source.at));
    values.push(readValue(source, own));
    source.skipLines();
    if (source.takes(",")) {
      source.skipLines();
    } else if (source.next() !== "]") {
      throw source.fault("Unclosed array");
    }
  }
  return values;
}

/**
 * A key and its value.
 * @param {Source} source
 * @param {Place} place
 */
function readPair(source, place) {
  const line = source.lineAt(source.at);
  const key = readKey(source);
  if (!source.takes("=")) throw source.fault("Expected '=' after a key in a key/value pair");
  source.skipSpaces();
  let own = place;
  for (const part of key) {
    own = own.part(part);
    own.note(line);
  }
  return { key, value: readValue(source, own) };
}

/** @param {Source} source @param {Place} place */
function readInlineTable(source, place) {
  const tables = new Tables(source);
  source.skipLines();
  let isOver = source.takes("}");
  while (!isOver) {
    const { key, value } = readPair(source, place);
    tables.defineInline(key, value);
    source.skipLines();
    isOver = source.takes("}");
    if (!isOver) {
      if (!source.takes(",")) throw source.fault("Unclosed inline table");
      source.skipLines();
      isOver = source.takes("}");
    }
  }
  return tables.root;
}

/** @param {Source} source @param {Place} place @returns {Value} */
function readValue(source, place) {
  switch (source.next()) {
    case '"':
    case "'":
      return readString(source);
    case "[":
      return nested(source, () => readArray(source, place));
    case "{":
      return nested(source, () => readInlineTable(source, place));
    default:
      return readScalar(source);
  }
}

/**
 * The section that the head of a table begins.
 * @param {Source} source
 * @param {Tables} tables
 * @param {Place} place of the document
 * @returns {Section}
 */
function readHead(source, tables, place) {
  const line = source.lineAt(source.at);
  const isDouble = source.startsWith("[[");
  source.at += isDouble ? 2 : 1;
  const key = readKey(source);
  const section = isDouble ? tables.element(key, place, line) : tables.head(key, place, line);
  if (!source.takes(isDouble ? "]]" : "]")) {
    const what = isDouble ? "']]' at the end of an array" : "']' at the end of a table";
    throw source.fault(`Expected ${what} declaration`);
  }
  return { ...section, head: key };
}

/**
 * Reads a head or a pair, and gives the section in which the next pair is.
 * @param {Source} source
 * @param {Tables} tables
 * @param {Section} section
 * @param {Place} place of the document
 */
function readStatement(source, tables, section, place) {
  if (source.next() === "[") return readHead(source, tables, place);
  if (!/[A-Za-z0-9_"'-]/.test(source.next())) throw source.fault("Invalid statement");
  const { key, value } = readPair(source, section.place);
  tables.define(section.table, section.head, key, value);
  return section;
}

/**
 * Goes to the next statement, and says whether there is one.
 * @param {Source} source
 */
function findStatement(source) {
  source.skipLines();
  return source.next() !== "";
}

/** @param {Source} source */
function endStatement(source) {
  source.skipSpaces();
  source.skipComment();
  if (source.next() !== "\n" && source.next() !== "") {
    throw source.fault("Expected newline or end of document after a statement");
  }
}

/**
 * Reads a document of TOML 1.1, within the bounds of `port1`.
 * @param {string} text
 * @returns {Document}
 * @throws {import("./toml/source.js").TomlFault}
 */
export function readToml(text) {
  const source = new Source(text);
  const tables = new Tables(source);
  const place = new Place();
  /** @type {Section} */
  let section = { table: tables.root, head: [], place };
  while (findStatement(source)) {
    section = readStatement(source, tables, section, place);
    endStatement(source);
  }
  return { table: tables.root, place };
}
