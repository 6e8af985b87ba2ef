// Good documents of TOML 1.0 that have all of its forms, and changes of them.

/** @type {readonly string[]} */
export const DOCUMENTS = [
  `# A comment with \ttab, é and 😀
title = "TOML" # behind
"quoted key" = 1
'literal "key"' = 2
"" = "empty"
bare-key_1 = -17
1234 = +99
"\\u00e9 \\U0001F600 \\" \\\\ \\b\\t\\n\\f\\r" = 'C:\\path'
a.b . "c d".'e' = 0
a.b.f = true
site."google.com" = false
`,
  `integers = [ 0, -0, +0, 1_000, 5_349_221, -1_2_3, 9223372036854775807, -9223372036854775808 ]
hex = [0xDEADBEEF, 0xdead_beef, 0x0, 0x00F]
octal = [0o01234567, 0o7_5]
binary = [0b11010110, 0b1_0]
floats = [1.0, 3.1415, -0.01, 5e+22, 1e06, -2E-2, 6.626e-34, 224_617.445_991_228, 0e0, -0.0, +0.0, 1e400, 5e-324]
special = [inf, +inf, -inf, nan, +nan, -nan]
large = 92233720368547758080
tiny = 1e-7
`,
  `odt1 = 1979-05-27T07:32:00Z
odt2 = 1979-05-27T00:32:00-07:00
odt3 = 1979-05-27T00:32:00.999999+05:45
odt4 = 1979-05-27 07:32:00z
ldt1 = 1979-05-27t07:32:00
ldt2 = 1979-05-27T00:32:00.1234567
ld1 = 2000-02-29
lt1 = 07:32:00
lt2 = 00:32:00.5
times = [ 23:59:59, 0001-01-01, 9999-12-31 23:59:59.999999Z, 2023-12-31T00:00:00-00:00 ]
`,
  `one = """
Roses are "red" ""
Violets \\
   \\

   are \\u0062lue"""
two = '''
I [dw]on't need \\d{2} apples'''
three = """"quoted""""
four = """""five quotes"""""
five = ''''it''''
six = '''''''' # eight
seven = """ends \\  \t
  here"""
eight = ""
nine = ''
ten = """"""
eleven = ''''''
`,
  `arrays = [
  [ 1, 2 ], # nested
  [ "a", 'b', """c""" ],
  [ ],
  [
    { x = 1, y.z = 2 }, # inline
    {},
  ] , 3.5
  # last
  ,
]
mixed = [ "x", 1, [ true ], { k = [ { } ] }, 1979-05-27 ]
inline = { first = "Tom", last = 'P', name.'a.b' = 1, name.c = { d = [] } }
`,
  `[table]
key = 1
[ spaced . "sub table" . 'x' ]
key = 2
[a.b.c]
z = 9
[a]
b.d = 1
y = 1
[x.y.z.w]
[x]
[fruit]
apple.color = "red"
apple.taste.sweet = true
[fruit.apple.texture]
smooth = true
`,
  `[[products]]
name = "Hammer"
sku = 738594937

[[products]]  # empty

[[products]]
name = "Nail"
colors = ["gray"]
[products.size]
w = 1
[[products.parts]]
id = 1
[[products.parts]]
id = 2
[products.parts.of]
[other.deep]
[[other.list]]
a.b = 1
[[other.list]]
a.b = 2
`,
  `version = 2
[[frame]]
type = 0
name = "call"
length = 0
answered = true
window = 16
[[frame]]
type = 128
name = "reply"
length = 2
bits = [ { at = 9, name = "flash" }, { at = 0, name = "call1" } ]
[[frame.bits2]]
at = 1
`,
  "crlf = 1\r\n\r\n# comment\r\ntext = \"\"\"\r\nline\r\n\\\r\n  more\"\"\"\r\n[t]\r\nlast = [\r\n1,\r\n]",
  "",
  "a = 1",
  "\n\n# only\n",
];

const PIECES = [
  ...['"', "'", '"""', "'''", "\\", "\n", "\r", "\r\n", " ", "\t", "#", "[", "]", "[[", "]]", "{", "}", ",", "=", "."],
  ...["_", "-", "+", "e", "E", "0", "1", "9", "0x", "0o", "0b", ":", "T", "Z", "true", "false", "inf", "nan", "a", "b"],
  ...["\\u12", "\\ud800", "\\U00110000", "\\x41", "\\e", "\u0000", "\u007f", "\u000b", "\u0085", "\u00a0", "\ufeff"],
  ...["\u2028", "é", "😀"],
  ...["a = 1\n", "a.b = 1\n", "[a]\n", "[a.b]\n", "[[a]]\n", "[[a.b]]\n", "a = {}\n", "a = []\n"],
  ...["1979-05-27", "1979-13-01", "1979-02-30", "0000-01-01", "07:32:00", "07:32", "24:00:00", "23:59:60", "+00:60"],
  ...["{ a = 1, a = 2 }", "{ a.b = 1, a.c = 2 }", "{ a = {}, a.b = 1 }", "[ { }, [ ] ]"],
  ...["{ x = 1, }", "{\n}", "1_", "01"],
];

function cut(random, characters) {
  const [begin, count] = [random.below(characters.length + 1), random.one([1, 1, 1, 2, 5, 20])];
  return [...characters.slice(0, begin), ...characters.slice(begin + count)];
}

function put(random, characters) {
  const at = random.below(characters.length + 1);
  return [...characters.slice(0, at), ...random.one(PIECES), ...characters.slice(at)];
}

function copied(random, characters) {
  const [from, to] = [random.below(characters.length + 1), random.below(characters.length + 1)];
  const piece = characters.slice(from, from + random.between(1, 30));
  return [...characters.slice(0, to), ...piece, ...characters.slice(to)];
}

function linesMixed(random, characters) {
  const lines = characters.join("").split("\n");
  const other = random.one(DOCUMENTS).split("\n");
  lines.splice(random.below(lines.length + 1), random.below(2), ...other.slice(random.below(other.length)).slice(0, 3));
  return [...lines.join("\n")];
}

/**
 * A document with some changes.
 * @param {ReturnType<typeof import("./random.js").randomOf>} random
 * @returns {string}
 */
export function mutated(random) {
  let characters = [...random.one(DOCUMENTS)];
  for (let count = random.one([1, 1, 1, 2, 3, 6]); count > 0; count -= 1) {
    characters = random.one([cut, put, put, copied, linesMixed])(random, characters);
  }
  return characters.join("");
}

function smallKey(random) {
  return Array.from({ length: random.one([1, 1, 2, 2, 3]) }, () => random.one(["a", "b", "c"])).join(".");
}

function smallValue(random, depth) {
  const what = depth > 2 ? 0 : random.below(6);
  if (what < 4) return "1";
  const inner = () => (what === 4 ? "" : `${smallKey(random)} = `) + smallValue(random, depth + 1);
  const members = Array.from({ length: random.below(4) }, inner).join(", ");
  return what === 4 ? `[${members}]` : `{${members}}`;
}

/**
 * A document of few keys, in which heads, dotted keys and inline tables get in one another's way.
 * @param {ReturnType<typeof import("./random.js").randomOf>} random
 * @returns {string}
 */
export function entangled(random) {
  const lines = Array.from({ length: random.between(1, 7) }, () => {
    const key = smallKey(random);
    return random.one([`[${key}]`, `[[${key}]]`, `${key} = ${smallValue(random, 0)}`, `${key} = 1`]);
  });
  return lines.join("\n");
}
