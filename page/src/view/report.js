import { counted } from "../../../scripts/modules/text.js";
import { element, fillList, make } from "./dom.js";

/** @typedef {import("../../../scripts/modules/statistics/table.js").Head} Head */
/** @typedef {import("../../../scripts/modules/findings/findings.js").Finding} Finding */
/** @typedef {ReturnType<typeof import("../../../scripts/modules/statistics/table.js").tableOf>} Table */
/** @typedef {ReturnType<typeof import("../../../scripts/modules/statistics/damage.js").damageOf>} Damage */

/** The columns that are bad where they are not 0, and those of a gap that is reported. */
const BAD = new Set(["late", "missing", "spoilt"]);
const OF_GAP = new Set(["longest", "from s", "from"]);

/**
 * The table of stations and types.
 * @param {Table} table
 * @param {Finding[]} findings
 */
export function showTable({ heads, rows }, findings) {
  const ofGaps = findings.filter(({ sort }) => sort === "gap").map(({ kind }) => kind);
  const gaps = /** @type {NonNullable<Finding["kind"]>[]} */ (ofGaps);
  const head = make("tr");
  head.append(...heads.map(headCell));
  const lines = rows.map(({ cells, kind }) => {
    const line = make("tr");
    const hasGap = gaps.some(({ station, type }) => station === kind.station && type === kind.type);
    line.append(...cells.map((cell, at) => cellOf(cell, heads[at], hasGap)));
    return line;
  });
  const [top, body] = [make("thead"), make("tbody")];
  top.append(head);
  body.append(...lines);
  element("table").replaceChildren(top, body);
}

/**
 * The head of a column, with the word that stands above it and those after it in the summary as text.
 * @param {Head} head
 */
function headCell({ group, name, isLeft }) {
  const cell = make("th", "", isLeft ? "text-cell" : "");
  if (group) cell.append(make("span", `${group} `, "group"));
  cell.append(name);
  cell.scope = "col";
  return cell;
}

/** @param {string} text @param {Head} head @param {boolean} hasGap */
function cellOf(text, { name, isLeft }, hasGap) {
  const isBad = (BAD.has(name) && text !== "0" && text !== "-") || (hasGap && OF_GAP.has(name));
  return make("td", text, isLeft ? "text-cell" : isBad ? "bad" : "");
}

/**
 * The damage by its cause, and where most of it lies.
 * @param {Damage} damage
 * @param {number} count
 */
export function showDamage({ sentence, where, stretches }, count) {
  element("damage").textContent = sentence ? `${sentence} ${where}` : "Nothing is damaged.";
  const told = stretches.map(({ text, pieces, share }) => `${text}: ${counted(pieces, "piece")}, ${share.toFixed(0)} % of all`);
  fillList(element("stretches"), told);
  element("tab-damage").textContent = count > 0 ? `Damage (${count})` : "Damage";
}
