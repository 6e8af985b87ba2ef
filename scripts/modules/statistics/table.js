import { VERDICTS } from "../listing/kinds.js";
import { usualGap } from "./gaps.js";

/** @typedef {import("./commands.js").Commands} Commands */
/** @typedef {import("./units.js").Units} Units */

/**
 * The head of a column: its name, and the word above it for this column and those after it, if any.
 * @typedef {{group: string, name: string, isLeft: boolean}} Head
 */

/**
 * A line of the table: a kind of commands, and a text for each column, `-` where it is not known.
 * @typedef {{kind: import("./kinds.js").Kind, name: string, cells: string[]}} TableRow
 */

const NAMES = [
  ...["station", "type", "name", "sent", ...VERDICTS, "%"],
  ...["min", "median", "99 %", "max", "usual", "longest", "from s"],
];

const GROUPS = new Map([["%", "bad"], ["min", "reply"], ["usual", "gap"]]);

/** @type {readonly Head[]} */
export const HEADS = Object.freeze(
  NAMES.map((name) => Object.freeze({ group: GROUPS.get(name) ?? "", name, isLeft: name === "name" })),
);

/**
 * The heads: where times of day are told, the last column has these.
 * @param {import("./bus.js").Bus} bus
 * @returns {readonly Head[]}
 */
const headsOf = ({ dayTime }) =>
  dayTime === null ? HEADS : [...HEADS.slice(0, -1), { group: "", name: "from", isLeft: false }];

/** @param {Commands} commands */
function verdictCells(commands) {
  const { decided, verdicts, bad } = commands;
  if (decided === 0) return [...VERDICTS.map(() => "-"), "-"];
  return [...VERDICTS.map((verdict) => String(verdicts[verdict])), ((100 * bad) / decided).toFixed(1)];
}

/** @param {import("./histogram.js").Histogram} times @param {Units} units */
function replyCells(times, units) {
  const bits = [times.least, times.quantile(50), times.quantile(99), times.most];
  return bits.map((count) => (times.total > 0 ? units.milliseconds(count) : "-"));
}

/** @param {Commands} commands @param {Units} units */
function gapCells(commands, units) {
  const usual = usualGap(commands);
  const shown = usual === 0 ? "-" : units.milliseconds(usual);
  const { longestOfAll } = commands;
  if (longestOfAll === null) return [shown, "-", "-"];
  const { from, to } = longestOfAll;
  return [shown, units.milliseconds(to.place - from.place), units.clock(from.place)];
}

/** @param {import("./kinds.js").Kind} kind @param {Commands} commands @param {Units} units */
function rowOf(kind, commands, units) {
  const name = commands.name || "-";
  const cells = [
    ...[String(kind.station), String(kind.type), name, String(commands.sent)],
    ...verdictCells(commands),
    ...replyCells(commands.replies, units),
    ...gapCells(commands, units),
  ];
  return { kind, name, cells };
}

/**
 * A table with a line for each kind of commands, for HTML and for the report.
 * @param {import("./bus.js").Bus} bus
 * @returns {{heads: readonly Head[], rows: TableRow[]}}
 */
export function tableOf(bus) {
  const units = bus.units;
  return { heads: headsOf(bus), rows: bus.commands.sorted().map(([kind, commands]) => rowOf(kind, commands, units)) };
}
