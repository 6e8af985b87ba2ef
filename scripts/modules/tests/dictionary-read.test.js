// Dictionaries: the faults that the tables of the program's tests tell, the entries that the scripts read, and what the
// program itself says.

import assert from "node:assert/strict";
import { spawnSync } from "node:child_process";
import { existsSync, readFileSync } from "node:fs";
import { test } from "node:test";

import { readDictionary } from "../dictionary/dictionary.js";
import { Fault } from "../fault.js";
import { IS_WHOLE, TOP, askPython } from "./support/scripts.js";
import { madeDictionary } from "./support/made_dictionary.js";
import { randomOf } from "./support/random.js";
import { DOCUMENTS, entangled, mutated } from "./support/toml_corpus.js";

/** The program, where it is built. */
const PROGRAM = [process.env.PORT1, `${TOP}crates/port1/out/port1`].find((path) => path && existsSync(path));

const ROWS = `
sys.path.insert(0, sys.argv[1])
from tests.table.dictionaries import REFUSED, TAKEN
json.dump([REFUSED, [case.words[2] for case in TAKEN]], sys.stdout)
`;

const ENTRIES = `
import tomllib
def fields(table, version):
    bits = [{"at": at, "name": name} for at, name in sorted((bit["at"], bit["name"]) for bit in table.get("bits", []))]
    window = table.get("window", 0) if version == 2 else 0
    given = {key: table[key] for key in ("type", "name", "length")}
    return {**given, "answered": table.get("answered", False), "window": window, "bits": bits}
roots = [tomllib.loads(text) for text in json.load(sys.stdin)]
json.dump([[fields(table, root["version"]) for table in root["frame"]] for root in roots], sys.stdout)
`;

/** What is wrong with a dictionary; nothing where it is good. */
function faultIn(text) {
  try {
    readDictionary(text);
    return "";
  } catch (fault) {
    if (!(fault instanceof Fault)) throw fault;
    return fault.message;
  }
}

/** What the program says of a dictionary; nothing where it takes it. */
function saidByProgram(text) {
  const ran = spawnSync(PROGRAM ?? "", ["check", "--bits", `--dict=${text}`], { input: "" });
  assert.ok(ran.status === 0 || ran.status === 2, `status ${ran.status}: ${ran.stderr}`);
  return ran.status === 0 ? "" : ran.stderr.toString().replace(/^port1: (.*)\n$/, "$1");
}

const [REFUSED, TAKEN] = askPython(ROWS, null, TOP);

test("rows of the program's tests that are refused", () => {
  assert.ok(REFUSED.length > 500);
  for (const [text, why] of REFUSED) {
    assert.equal(faultIn(text), `dictionary: ${why}`, text);
  }
});

test("rows of the program's tests that are taken, with their entries", () => {
  const examples = ["call-and-reply", "call-within-window", "poll-and-state", "port1-failure"];
  const texts = [...TAKEN, ...examples.map((name) => readFileSync(`${TOP}examples/${name}.toml`, "utf8"))];
  const wanted = askPython(ENTRIES, texts);
  for (const [at, text] of texts.entries()) {
    assert.deepEqual(readDictionary(text), wanted[at], text);
  }
  const bits = [{ at: 0, name: "call1" }, { at: 7, name: "ped" }, { at: 9, name: "flash" }];
  const state = { type: 129, name: "state", length: 2, answered: false, window: 0, bits };
  assert.deepEqual(readDictionary(readFileSync(`${TOP}examples/poll-and-state.toml`, "utf8"))[1], state);
});

// What TOML 1.1 and TOML 1.0 do not have in common, and the bounds of the program.
const GOOD = 'version = 1\nx = ?\n[[frame]]\ntype = 1\nname = "a"\nlength = 1\n';
const DIALECT = [
  ...["{ a = 1, }", "{\n a = 1, # x\n b = 2\n}", "{}", "{\n}", '"\\e\\x41"', "07:32", "1979-05-27 07:32", "0000-01-01"],
  ...["23:59:60", "07:32:10.5", "9223372036854775807", "-9223372036854775808", "1e308", "0x7fffffffffffffff", "0b1"],
  ...[`${"[".repeat(80)}${"]".repeat(80)}`, `${"{a=".repeat(80)}1${"}".repeat(80)}`],
].map((value) => [GOOD.replace("?", value), ""]);
const NOT_TOML = [
  ...["{ , }", "{ a = 1,, }", "{ a\n= 1 }", "{ a =\n1 }", '"\\x4"', "07", "24:00", "07:60", "07:32:61", "1979-02-30"],
  ...["9223372036854775808", "-9223372036854775809", "1e309", "-1e309", "0x8000000000000000", "0x", "1__0", "01"],
  ...[`${"[".repeat(81)}${"]".repeat(81)}`, `${"{a=".repeat(81)}1${"}".repeat(81)}`],
].map((value) => [GOOD.replace("?", value), "dictionary: not TOML"]);
const WHOLE_TEXTS = [
  [`\ufeff${GOOD.replace("?", "1")}`, ""],
  [`${GOOD.replace("?", "1")}\r`, "dictionary: not TOML"],
  [GOOD.replace("?", "1").replaceAll("\n", "\r\n"), ""],
  [GOOD.replace("x = ?", `${Array(80).fill("x").join(".")} = 1`), ""],
  [GOOD.replace("x = ?", `${Array(81).fill("x").join(".")} = 1`), "dictionary: not TOML"],
];
const BY_SPECIFICATION = [...DIALECT, ...NOT_TOML, ...WHOLE_TEXTS];

test("what is TOML for the program, by its specification", () => {
  for (const [text, why] of BY_SPECIFICATION) {
    assert.equal(faultIn(text), why, text);
  }
});

test("the program says the same", { skip: PROGRAM ? false : "the program is not built" }, () => {
  const random = randomOf(40);
  const count = IS_WHOLE ? 5000 : 300;
  const texts = BY_SPECIFICATION.map(([text]) => text);
  texts.push(...DOCUMENTS, ...Array.from({ length: count }, () => madeDictionary(random)));
  texts.push(...Array.from({ length: count }, () => mutated(random)));
  texts.push(...Array.from({ length: count }, () => `${entangled(random)}\n[last]`));
  for (const text of texts.filter((one) => !one.includes("\0"))) {
    assert.equal(faultIn(text), saidByProgram(text), JSON.stringify(text));
  }
});
