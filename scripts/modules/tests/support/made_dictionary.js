// Random dictionaries, most of them with a fault or two.

const VALUES = {
  type: ["0", "1", "2", "127", "128", "129", "130", "255", "256", "-1", "1.0", "'1'", "true", "0x10"],
  name: [
    ...["'call'", '"reply"', "'a b'", "''", `'${"x".repeat(40)}'`, `'${"x".repeat(41)}'`, '"\\n"', "'é'", "7"],
    ...["'a\\'", "1979-05-27", "[ 'a', 7, true ]", "{ a = \"it's\", b = 1.0 }"],
  ],
  length: ["0", "1", "2", "253", "254", "-1", "2.0", "true", "[]"],
  answered: ["true", "false", "1", "'true'", "[ true ]"],
  window: ["8", "7", "1048576", "1048577", "16.0", "'16'", "-8", "1536"],
  bits: [
    ...["[]", "[ { at = 0, name = 'a' } ]", "[ { at = 7, name = 'a' }, { at = 0, name = 'b' } ]", "{}", "1", "[ 1 ]"],
    ...["[ { at = 0, name = 'a' }, { at = 0, name = 'b' } ]", "[ { at = 8, name = 'a' } ]"],
    ...["[ { at = 2024, name = 'a' } ]", "[ { at = 0 } ]", "[ { name = 'a' } ]", "[ { at = 1, nam = 'a' } ]"],
    ...["[ { at = 0, name = 'a', note = 1 } ]", "[ [] ]"],
  ],
};

const STRANGE = [
  ...["colour = 'red'", "answerd = true", "Type = 1", "windows = 8", "[frame.more]", "[[frame.bits]]"],
  ...["note.x = 1", "lenght = 07:32:00"],
];

/** An entry, of which a value is now and then one of all that may stand there. */
function entry(random, type, answered) {
  const pick = (key, good) => `${key} = ${random.once(12) ? random.one(VALUES[key]) : good}`;
  const lines = [pick("type", type), pick("name", `'n${type}'`), pick("length", random.below(4))];
  if (answered || random.once(12)) lines.push(pick("answered", "true"));
  if (random.once(answered ? 2 : 8)) lines.push(pick("window", "16"));
  if (random.once(4)) lines.push(`bits = ${random.one(VALUES.bits)}`);
  if (random.once(8)) lines.splice(random.below(lines.length), 1);
  if (random.once(8)) lines.push(random.one(STRANGE));
  return ["[[frame]]", ...lines].join("\n");
}

/**
 * The text of a random dictionary.
 * @param {ReturnType<typeof import("./random.js").randomOf>} random
 * @returns {string}
 */
export function madeDictionary(random) {
  const version = random.once(10) ? random.one(["3", "1.0", "2.0", "true", "'1'", "0", "[ 1 ]"]) : random.between(1, 2);
  const parts = random.once(20) ? [] : [`version = ${version}`];
  for (let count = random.one([0, 1, 1, 1, 2, 3]); count > 0; count -= 1) {
    const type = random.below(random.one([3, 128]));
    const answered = random.once(2);
    parts.push(entry(random, type, answered));
    if (answered && !random.once(10)) parts.push(entry(random, type + 128, false));
  }
  if (random.once(10)) parts.push(random.one(["[other]", "frame = 1", "extra = [ 1,\n2 ]", "[[frame]]", "# end", "["]));
  return parts.join("\n");
}
