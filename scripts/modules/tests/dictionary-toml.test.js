// The reader of TOML 1.1 beside Python's of 1.0: what both take they read alike, and they differ where the editions do.

import assert from "node:assert/strict";
import { test } from "node:test";

import { DateTime, readToml } from "../dictionary/toml.js";
import { TomlFault } from "../dictionary/toml/source.js";
import { IS_WHOLE, askPython } from "./support/scripts.js";
import { randomOf } from "./support/random.js";
import { DOCUMENTS, entangled, mutated } from "./support/toml_corpus.js";

const READ = `
import tomllib

def tagged(value):
    if isinstance(value, dict):
        return ["table", [[key, tagged(inner)] for key, inner in value.items()]]
    if isinstance(value, list):
        return ["array", [tagged(inner) for inner in value]]
    if isinstance(value, float):
        return ["float", value if abs(value) < 1e400 else 0]
    names = {str: "string", int: "integer", bool: "boolean"}
    return [names[type(value)], str(value)] if type(value) in names else ["time"]

def read(text):
    try:
        table = tomllib.loads(text)
    except tomllib.TOMLDecodeError as fault:
        return {"fault": str(fault)}
    return {"table": tagged(table)}

json.dump([read(text) for text in json.load(sys.stdin)], sys.stdout)
`;

function tagged(value) {
  if (value instanceof Map) return ["table", [...value].map(([key, inner]) => [key, tagged(inner)])];
  if (Array.isArray(value)) return ["array", value.map(tagged)];
  switch (typeof value) {
    case "bigint":
      return ["integer", String(value)];
    case "number":
      return ["float", Number.isFinite(value) ? value : 0];
    case "boolean":
      return ["boolean", value ? "True" : "False"];
    default:
      return value instanceof DateTime ? ["time"] : ["string", value];
  }
}

function read(text) {
  try {
    return { table: tagged(readToml(text).table) };
  } catch (fault) {
    if (fault instanceof TomlFault) return { fault: fault.message };
    throw fault;
  }
}

/** What only TOML 1.1 has: escapes, line ends and a comma at the end of inline tables, times of minutes, and others. */
const NEW = /\\[ex]|[{,]\s*(#.*)?\n|\n\s*\}|,\s*\}|\d\d:\d\d(?!:)|:60|\b0000-|^\ufeff/;

/** What `port1` does not take of TOML. */
const BOUNDS = /out of range|too deep|Too many parts/;

function compare(texts) {
  const wanted = askPython(READ, texts);
  return texts.map((text, at) => {
    const [got, { fault, table }] = [read(text), wanted[at]];
    const shown = JSON.stringify(text);
    if (got.fault === undefined && fault === undefined) assert.deepEqual(got.table, table, shown);
    else if (fault === undefined) assert.match(got.fault, BOUNDS, shown);
    else if (got.fault === undefined) assert.match(text, NEW, `${shown}: ${fault}`);
    return got;
  });
}

test("good documents", () => {
  const good = compare(DOCUMENTS).filter(({ fault }) => fault === undefined);
  assert.ok(good.length >= DOCUMENTS.length - 1); // one has numbers beyond the bounds
});

test("changed documents", () => {
  const random = randomOf(20);
  const count = IS_WHOLE ? 100_000 : 10_000;
  const wanted = compare(Array.from({ length: count }, () => mutated(random)));
  const refused = wanted.filter(({ fault }) => fault !== undefined).length;
  assert.ok(refused > count / 3 && refused < (count * 19) / 20, `${refused} of ${count} refused`);
});

test("tables that get in one another's way", () => {
  const random = randomOf(21);
  const count = IS_WHOLE ? 200_000 : 20_000;
  const wanted = compare(Array.from({ length: count }, () => entangled(random)));
  const told = new Set(wanted.map(({ fault }) => fault?.replace(/ \(at .*/, "").replace(/(namespace) .*/, "$1")));
  for (const what of ["Cannot overwrite a value", "Cannot mutate immutable namespace", "Cannot redefine namespace"]) {
    assert.ok(told.has(what), `no fault: ${what}`);
  }
  assert.ok(wanted.filter(({ fault }) => fault === undefined).length > count / 10);
});

/** Values of TOML, some of several lines, and some with signs in them that are none. */
const VALUES = [
  ...["1", "-1.5e3", "1979-05-27 07:32:00", '"a = [b]"', "'''x'''", '"""\n[[k0]]\nk1 = 2\n"""', "[\n1,\n# k2 = 3\n]"],
  ...['{ a = 1, b.c = "," }', '["]", "["]', '"\\"# k5 = 6"', "'\\'"],
];

/** Lines of a table without a head, and the key that each begins with. */
function* linesOfTable(random, nextKey) {
  for (let count = random.between(1, 4); count > 0; count -= 1) {
    const key = nextKey();
    const written = random.one([key, `"${key}"`, `'${key}'`]);
    const [first, ...more] = `${written} = ${random.one(VALUES)}${random.one(["", " # k3 = 4"])}`.split("\n");
    yield [random.one(["", "  "]) + first, key];
    for (const line of more) yield [line, ""];
    if (random.once(3)) yield [random.one(["", "# k4 = 5", "   "]), ""];
  }
}

/** The lines of all keys of a document, by the last part of their paths. */
function* linesOf({ parts }) {
  for (const [part, place] of parts) {
    if (place.line > 0) yield [part, place.line];
    yield* linesOf(place);
  }
}

test("on which lines the keys of random texts stand", () => {
  const random = randomOf(15);
  for (let round = 0; round < 300; round += 1) {
    let last = 10;
    const nextKey = () => `k${(last += 1)}`;
    const texts = [...linesOfTable(random, nextKey)];
    for (let tables = random.below(4); tables > 0; tables -= 1) {
      const key = nextKey();
      const head = random.one(["[?]", "[[?]]", "[a.?]", '[[a."?"]]', "[ ? ]"]).replace("?", key);
      texts.push([head, key], ...linesOfTable(random, nextKey));
    }
    const text = texts.map(([line]) => `${line}\n`).join("");
    const wanted = texts.flatMap(([, key], at) => (key === "" ? [] : [[key, at + 1]]));
    const got = new Map([...linesOf(readToml(text).place)].reverse());
    for (const [key, line] of wanted) assert.equal(got.get(key), line, `${key} of ${text}`);
  }
});

test("the days of all months, and the bounds of times", () => {
  const two = (number) => String(number).padStart(2, "0");
  const values = [];
  for (const year of ["0000", "0001", "1900", "2000", "2022", "2023", "2024"]) {
    for (let month = 0; month <= 13; month += 1) {
      values.push(...[0, 1, 28, 29, 30, 31, 32].map((day) => `${year}-${two(month)}-${two(day)}`));
    }
  }
  const times = ["00:00:00", "23:59:59", "24:00:00", "23:60:00", "23:59:60", "20:10:50", "1:00:00"];
  times.push("01:00", "01:00:00.");
  for (const time of times) {
    const [day, offsets] = ["2024-02-29", ["", "Z", "z", "+00:00", "+23:59", "-20:00", "-24:00", "+01:60", "-00:30"]];
    values.push(time, ...offsets.flatMap((offset) => ["T", "t", " "].map((mark) => day + mark + time + offset)));
  }
  const taken = compare(values.map((value) => `x = ${value}`)).filter(({ fault }) => fault === undefined);
  assert.ok(taken.length > 200);
});

test("each control character, and some beyond, in each place", () => {
  const codes = [...Array(33).keys(), 0x7f, 0x80, 0x85, 0xa0, 0xad, 0x2028, 0xfeff, 0xfffd, 0xffff, 0x10ffff];
  const frames = [
    ...["# ?", 'a = "?"', "a = '?'", 'a = """?"""', "a = '''?'''", '"?" = 1', "'?' = 1", "a?= 1", "a = ?1"],
    ...["a = 1?", "[?a]", "[a?]", "a = [?1]", "a = {?b = 1}", "?", 'a = "\\?"', 'a = """\\?"""', "[a]?", "a.?b = 1"],
    ...["a?", "\r?\n"],
  ];
  const texts = codes.flatMap((code) => frames.map((frame) => frame.replace("?", String.fromCodePoint(code))));
  const taken = compare(texts).filter(({ fault }) => fault === undefined);
  assert.ok(taken.length > codes.length);
});

test("characters by their numbers", () => {
  const codes = ["u0000", "ud7ff", "ud800", "udfff", "ue000", "uffff", "U0010ffff", "U00110000", "Uffffffff", "u00e"];
  codes.push("x41", "e");
  const taken = compare(codes.map((code) => `x = "\\${code}"`)).filter(({ fault }) => fault === undefined);
  assert.equal(taken.length, 7);
});

test("brackets in one another", () => {
  const nested = (begin, count, end) => `x = ${begin.repeat(count)}1${end.repeat(count)}`;
  for (const [begin, end] of [["[", "]"], ["{a=", "}"]]) {
    assert.equal(read(nested(begin, 80, end)).fault, undefined);
    assert.match(read(nested(begin, 81, end)).fault, /^brackets too deep in one another \(at line 1, column \d+\)$/);
  }
});

test("a fault has a line and a column, which count characters", () => {
  /** @type {[string, number, number][]} */
  const rows = [['a = 1\n"😀" = ?', 2, 7], ["a = 'x", 1, 7], ["a = [\n1,\n", 3, 1], ["\r\n\r\na = \r\n", 3, 5]];
  for (const [text, line, column] of rows) {
    assert.throws(
      () => readToml(text),
      (fault) => fault instanceof TomlFault && fault.line === line && fault.column === column,
      JSON.stringify(text),
    );
  }
});
