import { readFileSync } from "node:fs";
import { readDictionary } from "../dictionary/dictionary.js";
import { Fault } from "../fault.js";
import { run, wordsOf, writeText } from "../system/command.js";
import { textOfInput } from "../system/input.js";

/** The dissector, in which the dictionary has a place. */
const DISSECTOR = new URL("dissector.lua", import.meta.url);

/** The octets before the data: address, control and type. */
const BEFORE_DATA = 3;

/** @typedef {import("../dictionary/dictionary.js").Entry} Entry */

/**
 * A text of printable ASCII, as Lua reads it.
 * @param {string} text
 */
const quoted = (text) => JSON.stringify(text);

/**
 * The last part of the filter of each name of a bit: other names, other filters.
 * @param {Entry[]} entries
 * @returns {Map<string, string>}
 */
function filtersOf(entries) {
  const [filters, taken] = [new Map(), new Set()];
  for (const { name } of entries.flatMap(({ bits }) => bits)) {
    if (filters.has(name)) continue;
    const valid = name.toLowerCase().replace(/[^a-z0-9]/g, "_");
    let unique = valid;
    for (let number = 2; taken.has(unique); number++) unique = `${valid}_${number}`;
    taken.add(unique);
    filters.set(name, unique);
  }
  return filters;
}

/** @param {Entry} entry @param {Map<string, string>} filters */
function textOfEntry({ type, name, length, bits }, filters) {
  const lines = bits.map(({ at, name: bit }) => {
    const place = `octet = ${BEFORE_DATA + Math.floor(at / 8)}, mask = ${1 << at % 8}`;
    return `    {${place}, name = ${quoted(bit)}, filter = ${quoted(filters.get(bit) ?? "")}},\n`;
  });
  return `  [${type}] = {name = ${quoted(name)}, length = ${length}, bits = {\n${lines.join("")}  }},\n`;
}

/**
 * What stands in the place of the dictionary.
 * @param {Entry[]} entries
 * @param {string} name
 */
function textOf(entries, name) {
  const [title, short] = name === "port1" ? ["NEMA TS 2 Port 1", "Port 1"] : [`NEMA TS 2 Port 1, ${name}`, name];
  const filters = filtersOf(entries);
  const names = `local PREFIX, TITLE, TITLE_SHORT = ${[name, title, short].map(quoted).join(", ")}\n\n`;
  return `${names}local ENTRIES = {\n${entries.map((entry) => textOfEntry(entry, filters)).join("")}}\n`;
}

/** @param {string} text */
function filterName(text) {
  if (!/^[a-z][a-z0-9_]*$/.test(text)) {
    throw new Fault(`${JSON.stringify(text)} is no name of lower-case letters, digits and _`);
  }
  return text;
}

run(async () => {
  const { name = "port1" } = wordsOf({ name: filterName }).values;
  const entries = readDictionary(await textOfInput());
  writeText(readFileSync(DISSECTOR, "utf8").replace("@ENTRIES@\n", () => `${textOf(entries, name)}\n`));
});
