// Contrast (WCAG 2.2, 1.4.3 and 1.4.11): each colour of the style on each ground that it stands on, light and dark.

import assert from "node:assert/strict";
import { readFileSync } from "node:fs";
import { test } from "node:test";

const STYLE = readFileSync(new URL("../style/base.css", import.meta.url), "utf8");

const [TEXT, GRAPHIC] = [4.5, 3];

/** Colours by the grounds on which they stand, and how much they have to differ.
 * @type {[number, string[], string[]][]}
 */
const PAIRS = [
  [TEXT, ["ink", "faint"], ["ground", "panel", "field"]],
  [TEXT, ["ink"], ["chosen-ground", "warn-ground"]],
  [TEXT, ["fault", "late", "spoilt"], ["panel", "field"]],
  [TEXT, ["fault"], ["warn-ground"]],
  [TEXT, ["hatch"], ["panel"]],
  [TEXT, ["answered", "late"], ["panel"]],
  [TEXT, ["bar-ink", "bar-faint", "bar-warn"], ["bar"]],
  [TEXT, ["on-primary"], ["primary"]],
  [TEXT, ["on-fault"], ["fault-ground"]],
  [TEXT, ["on-doubt"], ["doubt-ground"]],
  [TEXT, ["on-well"], ["well-ground"]],
  [TEXT, ["on-unknown"], ["unknown-ground"]],
  [TEXT, ["panel"], ["chosen"]],
  [TEXT, ["chosen"], ["field"]],
  [GRAPHIC, ["command", "answered", "other", "late", "missing", "spoilt", "damage", "hatch", "chosen"], ["panel", "field"]],
  [GRAPHIC, ["missing", "late", "spoilt", "damage", "faint"], ["chosen-ground"]],
];

/** The colours of a block of the style, by their names. */
function coloursOf(block) {
  return Object.fromEntries([...block.matchAll(/--([\w-]+): (#[0-9a-f]{6});/g)].map(([, name, colour]) => [name, colour]));
}

const [, light] = /^:root \{([^}]*)\}/m.exec(STYLE) ?? [];
const [, dark] = /prefers-color-scheme: dark\) \{\s*:root \{([^}]*)\}/.exec(STYLE) ?? [];
const SCHEMES = { light: coloursOf(light), dark: { ...coloursOf(light), ...coloursOf(dark) } };

/** The relative luminance of a colour. */
function luminance(colour) {
  const [red, green, blue] = [1, 3, 5].map((at) => {
    const share = Number.parseInt(colour.slice(at, at + 2), 16) / 255;
    return share <= 0.04045 ? share / 12.92 : ((share + 0.055) / 1.055) ** 2.4;
  });
  return 0.2126 * red + 0.7152 * green + 0.0722 * blue;
}

function contrast(one, other) {
  const [less, more] = [luminance(one), luminance(other)].sort((some, more) => some - more);
  return (more + 0.05) / (less + 0.05);
}

test("the contrast of black and white, and of a known pair", () => {
  assert.equal(contrast("#000000", "#ffffff"), 21);
  assert.equal(contrast("#777777", "#ffffff").toFixed(2), "4.48");
});

for (const [scheme, colours] of Object.entries(SCHEMES)) {
  test(`${scheme}: each colour stands out from its grounds`, () => {
    const wrong = PAIRS.flatMap(([least, inks, grounds]) =>
      inks.flatMap((ink) => grounds.map((ground) => [ink, ground, contrast(colours[ink], colours[ground]), least])),
    ).filter(([, , found, least]) => !(found >= least));
    assert.deepEqual(wrong, []);
  });
}

test("each colour of the style is counted, and none stands elsewhere", () => {
  const counted = new Set([...PAIRS.flatMap(([, inks, grounds]) => [...inks, ...grounds]), "rule", "warn-rule"]);
  assert.deepEqual(Object.keys(SCHEMES.light).filter((name) => !counted.has(name)), []);
  const rest = STYLE.replace(light, "").replace(dark, "").replace(/@media print \{[^]*$/, "");
  assert.deepEqual(rest.match(/#[0-9a-f]{3,8}\b(?=[;, )])/g), null);
});
