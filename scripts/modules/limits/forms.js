import { measureOf } from "./judge.js";

/** @typedef {import("./judge.js").Unit} Unit */

/**
 * A value with its unit, as text.
 * @param {number|null} value
 * @param {string} key
 */
export function shown(value, key) {
  const { unit } = measureOf(key);
  return value === null ? "nothing to judge" : `${Number(value.toFixed(3))}${unit && ` ${unit}`}`;
}

/** @param {import("./judge.js").Judgement} judgement */
export const sentenceOf = ({ where, key, value, limit }) =>
  `${where}: ${measureOf(key).text} ${shown(value, key)}, limit ${shown(limit, key)}`;

/** @param {import("./judge.js").Open} open */
export const openText = ({ where, key, value }) => `${where}: ${measureOf(key).text} ${shown(value, key)}, no limit`;

/** @param {import("./judge.js").Worse} worse */
export const worseText = ({ where, key, value, was }) =>
  `${where}: ${measureOf(key).text} ${shown(value, key)}, before ${shown(was, key)}`;

/** @param {Unit} unit */
export const brokenOf = ({ judgements }) => judgements.filter(({ isKept }) => !isKept);

/** @param {Unit} unit */
export const gradeOf = (unit) => {
  if (unit.fault) return "FAULT";
  return brokenOf(unit).length + unit.worse.length > 0 ? "FAIL" : "PASS";
};

/**
 * How many limits are kept.
 * @param {Unit} unit
 */
export function keptText(unit) {
  const [all, broken] = [unit.judgements.length, brokenOf(unit).length];
  return `${all - broken} of ${all} limits kept`;
}

/**
 * The lines of a unit that was judged.
 * @param {Unit} unit
 */
export function textOf(unit) {
  const broken = brokenOf(unit).map((judgement) => `     ${sentenceOf(judgement)}\n`);
  const worse = unit.worse.map((some) => `     worse: ${worseText(some)}\n`);
  const open = (unit.open ?? []).map((some) => `     not judged: ${openText(some)}\n`);
  return [`${gradeOf(unit)} ${unit.name}: ${keptText(unit)}\n`, ...broken, ...worse, ...open].join("");
}

/** @type {Record<string, string>} */
const ESCAPES = { "&": "&amp;", "<": "&lt;", ">": "&gt;", '"': "&quot;", "'": "&#x27;" };

/**
 * A text for HTML and XML, without the characters that XML cannot have.
 * @param {string} text
 */
export const asHtml = (text) =>
  text.replace(/[\0-\x08\x0b\x0c\x0e-\x1f]/g, "?").replace(/[&<>"']/g, (character) => ESCAPES[character]);

/** @param {string} unit @param {string} name @param {string} inner */
function caseOf(unit, name, inner) {
  return `<testcase classname="${asHtml(unit)}" name="${asHtml(name)}">${inner}</testcase>\n`;
}

/** @param {string} text */
const failure = (text) => `<failure message="${asHtml(text)}"/>`;

/**
 * The cases of a unit in JUnit's XML.
 * @param {Unit} unit
 */
function casesOf(unit) {
  if (unit.fault) return [caseOf(unit.name, "listing", `<error message="${asHtml(unit.fault)}"/>`)];
  const limits = unit.judgements.map((judgement) => {
    const name = `${judgement.where} ${judgement.key}`;
    return caseOf(unit.name, name, judgement.isKept ? "" : failure(sentenceOf(judgement)));
  });
  const worse = unit.worse.map((some) => {
    return caseOf(unit.name, `${some.where} ${some.key} worse`, failure(worseText(some)));
  });
  return [...limits, ...worse];
}

/** @param {Unit[]} units */
export function junitOf(units) {
  const cases = units.flatMap(casesOf);
  const count = (/** @type {"failure"|"error"} */ tag) => cases.filter((text) => text.includes(`><${tag} `)).length;
  const head = `tests="${cases.length}" failures="${count("failure")}" errors="${count("error")}"`;
  const suite = `<testsuite name="bus-limits" ${head}>\n${cases.join("")}</testsuite>\n`;
  return `<?xml version="1.0" encoding="UTF-8"?>\n${suite}`;
}

/** @param {string|number|null} value */
const csvCell = (value) => {
  const text = String(value ?? "");
  return /[",\r\n]/.test(text) ? `"${text.replaceAll('"', '""')}"` : text;
};

/**
 * A row for each limit of each unit.
 * @param {Unit[]} units
 */
export function csvOf(units) {
  const rows = units.flatMap((unit) => {
    const head = [unit.name, gradeOf(unit)];
    if (unit.fault) return [[...head, "", "", "", "", unit.fault]];
    const judged = unit.judgements.map(({ where, key, value, limit, isKept }) => {
      return [...head, where, key, value, limit, isKept ? "kept" : "not kept"];
    });
    return [...judged, ...(unit.open ?? []).map(({ where, key, value }) => [...head, where, key, value, "", "not judged"])];
  });
  const heads = ["unit", "verdict", "where", "key", "value", "limit", "result"];
  return [heads, ...rows].map((row) => `${row.map(csvCell).join(",")}\r\n`).join("");
}

/**
 * The whole run, which can be the baseline of another.
 * @param {Unit[]} units
 * @param {string} date
 */
export function jsonOf(units, date) {
  const told = units.map((unit) => ({ ...unit, verdict: gradeOf(unit) }));
  return `${JSON.stringify({ date, units: told }, null, 2)}\n`;
}
