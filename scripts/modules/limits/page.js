import { asHtml, brokenOf, keptText, openText, sentenceOf, shown, gradeOf, worseText } from "./forms.js";

/** @typedef {import("./judge.js").Unit} Unit */

const STYLE = `
:root { color-scheme: light dark; --ink: #1a1a1a; --back: #fff; --line: #888; --good: #0b5d1e; --bad: #a10e0e; }
@media (prefers-color-scheme: dark) {
  :root { --ink: #eee; --back: #16181b; --line: #777; --good: #7ddc93; --bad: #ff9c94; }
}
* { box-sizing: border-box; }
body { margin: 1.5rem auto; max-width: 80rem; padding: 0 1rem; font: 16px/1.4 system-ui, sans-serif;
  color: var(--ink); background: var(--back); }
table { border-collapse: collapse; width: 100%; }
th, td { border: 1px solid var(--line); padding: .4rem .5rem; text-align: left; vertical-align: top; }
td.number { white-space: nowrap; }
code { font-size: .75rem; }
code, li, td:first-child { overflow-wrap: anywhere; }
td:first-child { min-width: 6rem; }
ul { margin: 0; padding-left: 1.1rem; }
.PASS { color: var(--good); font-weight: bold; }
.FAIL, .FAULT { color: var(--bad); font-weight: bold; }
@media screen and (max-width: 48rem) {
  thead { position: absolute; clip-path: inset(50%); height: 1px; overflow: hidden; }
  table, tbody, tr, td { display: block; }
  tr { border: 1px solid var(--line); margin-bottom: 1rem; }
  td { border: 0; display: grid; grid-template-columns: 9rem 1fr; }
  td::before { content: attr(data-label); font-weight: bold; color: var(--ink); }
}
@page { size: A4 landscape; margin: 12mm; }
@media print {
  :root { --ink: #000; --back: #fff; --line: #888; --good: #0b5d1e; --bad: #a10e0e; }
  body { margin: 0; max-width: none; padding: 0; font-size: 10pt; }
  tr { break-inside: avoid; }
}`;

const HEADS = ["Unit", "Recording, SHA-256", "Verdict", "Longest reply", "Longest gap", "Damaged", "Limits"];

/**
 * The worst of the values that are known, as text.
 * @param {(number|null)[]} values
 * @param {string} key
 */
function worst(values, key) {
  const known = /** @type {number[]} */ (values.filter((value) => value !== null));
  return known.length === 0 ? "-" : shown(Math.max(...known), key);
}

/** @param {Unit} unit */
function itemsOf(unit) {
  const worse = unit.worse.map((some) => `Worse: ${worseText(some)}`);
  const open = (unit.open ?? []).map((some) => `Not judged: ${openText(some)}`);
  const texts = [...brokenOf(unit).map(sentenceOf), ...worse, ...open];
  const items = texts.map((text) => `<li>${asHtml(text)}</li>`).join("");
  return `<div>${keptText(unit)}${items && `<ul>${items}</ul>`}</div>`;
}

/** @param {Unit} unit */
function cellsOf({ statistics, ...unit }) {
  if (unit.fault) return ["-", "-", "-", asHtml(unit.fault)];
  const { kinds, damaged } = /** @type {import("./limits.js").Statistics} */ (statistics);
  return [
    worst(kinds.map(({ replyMs }) => replyMs.longest), "reply_longest_ms"),
    worst(kinds.map(({ gapMs }) => gapMs.longest), "gap_ms"),
    `${damaged}`,
    itemsOf(unit),
  ];
}

/** @param {Unit} unit */
function rowOf(unit) {
  const { file, sha256 } = unit.source;
  const verdict = gradeOf(unit);
  const [reply, gap, damaged, limits] = cellsOf(unit);
  const source = `<div>${asHtml(file)}<br><code>${sha256 ?? "-"}</code></div>`;
  const cells = [asHtml(unit.name), source, `<span class="${verdict}">${verdict}</span>`, reply, gap, damaged, limits];
  const texts = cells.map((cell, at) => {
    return `<td data-label="${HEADS[at]}"${at > 2 && at < 6 ? ' class="number"' : ""}>${cell}</td>`;
  });
  return `<tr>${texts.join("")}</tr>\n`;
}

/**
 * One page with a row for each unit. It needs nothing else.
 * @param {Unit[]} units
 * @param {string} date
 * @param {{ file: string, sha256: string }} limits
 */
export function pageOf(units, date, limits) {
  /** @param {"PASS"|"FAIL"|"FAULT"} wanted */
  const count = (wanted) => units.filter((unit) => gradeOf(unit) === wanted).length;
  const counts = `${units.length} units: ${count("PASS")} PASS, ${count("FAIL")} FAIL, ${count("FAULT")} FAULT.`;
  return `<!DOCTYPE html>
<html lang="en"><head><meta charset="utf-8"><meta name="viewport" content="width=device-width, initial-scale=1">
<title>Bus limits, ${asHtml(date)}</title><style>${STYLE}</style></head><body>
<h1>Bus limits</h1>
<p>${asHtml(date)}. ${counts} Limits: ${asHtml(limits.file)}, SHA-256 <code>${limits.sha256}</code>.</p>
<table><thead><tr>${HEADS.map((head) => `<th>${head}</th>`).join("")}</tr></thead><tbody>
${units.map(rowOf).join("")}</tbody></table></body></html>
`;
}
