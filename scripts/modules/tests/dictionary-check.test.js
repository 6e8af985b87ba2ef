// Findings in dictionaries, by the rows of the tests of check-dictionary.

import assert from "node:assert/strict";
import { readFileSync } from "node:fs";
import { test } from "node:test";

import { remarksOfFile } from "../dictionary/check.js";
import { faultsBySchema } from "../dictionary/schema.js";
import { TOP } from "./support/scripts.js";

const SCHEMA = JSON.parse(readFileSync(`${TOP}examples/dictionary.schema.json`, "utf8"));

const [WINDOWS, POLL] = ["call-within-window", "poll-and-state"].map((name) => example(`${name}.toml`));

function example(name) {
  return readFileSync(`${TOP}examples/${name}`, "utf8");
}

const said = (findings) => findings.map(({ line, text }) => `${line}: ${text}`);

test("files that are no UTF-8 or no TOML, too deep, empty, or with line ends of Windows", () => {
  const windows = "; the lines end with CR LF: `tr -d '\\r'` takes the CR away";
  const rest = WINDOWS.split("version = 2")[1].replace("window", "# window");
  const deep = `version = 1\nx = ${"[".repeat(90)}${"]".repeat(90)}${rest}`;
  /** @type {[Buffer, string[]][]} */
  const rows = [
    [Buffer.from(WINDOWS.replace("reply", "r\xe9ply"), "latin1"), ["8: not UTF-8"]],
    [Buffer.from([0x61, 0xe2, 0x82]), ["1: not UTF-8"]],
    [Buffer.from("a = 1\n\xed\xa0\x80", "latin1"), ["2: not UTF-8"]],
    [Buffer.from("\n\na = '\xc0\x80'\n", "latin1"), ["3: not UTF-8"]],
    [Buffer.from(`\ufeff${POLL}`), []],
    [Buffer.from(WINDOWS.replaceAll("\n", "\r\n")), [`1: port1 says: not TOML${windows}`]],
    [Buffer.from(deep), ["2: not TOML: brackets too deep in one another (at line 2, column 85)"]],
    [Buffer.from(`x = ${"[".repeat(5000)}`), ["1: not TOML: brackets too deep in one another (at line 1, column 85)"]],
    [Buffer.from(""), ["1: there is no `version` and no `frame`", "1: port1 says: version is not 1 or 2"]],
    [Buffer.from(POLL), []],
  ];
  for (const [octets, wanted] of rows) {
    assert.deepEqual(said(remarksOfFile(octets, SCHEMA)), wanted);
  }
});

test("a schema with what the validator does not know is refused", () => {
  const table = new Map();
  assert.deepEqual(faultsBySchema(table, { type: "object" }), []);
  const refusal = (what) => new Error(`the schema has what its reader does not know: ${what}`);
  /** @type {[object, Error][]} */
  const rows = [
    [{ maxItems: 1 }, refusal("maxItems: 1")],
    [{ type: "null" }, refusal('type: "null"')],
    [{ type: ["object"] }, refusal('type: ["object"]')],
    [{ additionalProperties: {}, properties: {} }, refusal("additionalProperties: {}")],
    [{ additionalProperties: false }, refusal("additionalProperties: false")],
    [{ properties: { a: { items: { not: {} } } } }, refusal("not: {}")],
    [{ definitions: { a: { format: "x" } } }, refusal('format: "x"')],
    [{ $ref: "#/definitions/a" }, new Error("the schema does not define #/definitions/a")],
    [{ $ref: "other.json" }, refusal('$ref: "other.json"')],
    [{ enum: ["x"] }, refusal('enum: ["x"]')],
  ];
  for (const [schema, error] of rows) {
    assert.throws(() => faultsBySchema(table, schema), error, JSON.stringify(schema));
  }
});
