/** An incident in words. */

import { FINDINGS } from "../statistics/findings.js";
import { counted } from "../text.js";

/** What a watch calls a finding, with its type of commands in place of #. */
const WORDS = new Map(
  Object.values(FINDINGS).flatMap(({ incident }) => (incident ? [[incident.name, incident.words]] : [])),
);

/**
 * A cause, as an incident's record names it: `gap 16/0`.
 * @param {string} text
 */
export function causeOf(text) {
  const [, sort = "", station = "", type = ""] = /^(\w+)(?: (\d+)\/(\d+))?$/.exec(text) ?? [];
  return { sort, station, type, words: WORDS.get(sort)?.replace("#", type) ?? text };
}

/**
 * What an incident is about: the cause that began it, how many others there are, and the stations of all. A rest of both
 * lines explains the gap that comes before it is told.
 * @param {Record<string, number>} causes how often each came, in their order
 */
export function aboutOf(causes) {
  const names = Object.keys(causes);
  const isOfRest = names[0]?.startsWith("gap ") && names.includes("rest");
  const cause = isOfRest ? "rest" : names[0] ?? "";
  const { station, words } = causeOf(cause);
  const all = names.map(causeOf).flatMap((other) => (other.station === "" ? [] : [Number(other.station)]));
  const more = names.length > 1 ? `, and ${counted(names.length - 1, "other cause")}` : "";
  const stations = [...new Set(all)].sort((one, other) => one - other);
  return { cause, words: `${words}${more}`, station, stations };
}

/**
 * The title of an incident's report.
 * @param {{ wall: string, causes: Record<string, number> }} incident
 */
export function titleOf({ wall, causes }) {
  const { words, station } = aboutOf(causes);
  const where = station === "" ? "" : `station ${station}, `;
  return `${wall.slice(0, 19).replace("T", " ")} UTC: ${where}${words}`;
}
