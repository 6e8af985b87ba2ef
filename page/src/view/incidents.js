import { RATE } from "../../../scripts/modules/port1.js";
import { aboutOf, titleOf } from "../../../scripts/modules/watch/words.js";
import { element, make } from "./dom.js";

/** @typedef {import("./given.js").Given} Given */

/**
 * What `bus-watch` writes beside the bits of an incident.
 * @typedef {object} Told
 * @property {string} wall when it began
 * @property {number} place where it began, in its run
 * @property {number} seconds how long it lasted
 * @property {Record<string, number>} causes
 * @property {string} begin when place 0 of its run was
 * @property {number} origin the place of the first bit
 */

/** @typedef {Told & { files: Map<string, File>, path: string }} Incident with the files of its folder */

/** The file that makes a folder one of an incident. */
const TOLD = "incident.json";

/** @param {string} path */
const folderOf = (path) => path.slice(0, path.lastIndexOf("/") + 1);

/**
 * @param {Given} given
 * @param {Given[]} all
 * @returns {Promise<Incident>}
 */
async function incidentOf({ file, path }, all) {
  const told = /** @type {Told} */ (JSON.parse(await file.text()));
  const { wall, begin, causes, place, seconds, origin } = told;
  const isWhole = [wall, begin].every((time) => !Number.isNaN(Date.parse(time))) && causes !== null;
  if (!isWhole || typeof causes !== "object" || ![place, seconds, origin].every(Number.isFinite)) throw new Error(path);
  const own = all.filter((other) => folderOf(other.path) === folderOf(path));
  return { ...told, path: folderOf(path), files: new Map(own.map((other) => [other.file.name, other.file])) };
}

/**
 * The incidents among files, the last one first, and those of which nothing can be told.
 * @param {Given[]} all
 */
export async function incidentsAmong(all) {
  const marked = all.filter(({ file }) => file.name === TOLD);
  const read = await Promise.allSettled(marked.map((given) => incidentOf(given, all)));
  const found = read.flatMap((one) => (one.status === "fulfilled" ? [one.value] : []));
  const broken = marked.filter((_, at) => read[at].status === "rejected").map(({ path }) => path);
  return { incidents: found.sort((one, other) => Date.parse(other.wall) - Date.parse(one.wall)), broken };
}

/**
 * The file that is shown of an incident, and when its place 0 was: its bits, or its listing where bits cannot be read.
 * @param {Incident} incident
 * @param {boolean} canDecode
 */
export function shownOf({ files, begin, origin }, canDecode) {
  const [bits, listing] = ["bits.ts2", "listing.txt"].map((name) => files.get(name));
  const [file, first] = bits && (canDecode || !listing) ? [bits, origin] : [listing, 0];
  return file ? { file, first, begin: { text: begin, late: first / RATE } } : null;
}

/**
 * How long an incident was.
 * @param {number} seconds
 */
const lengthOf = (seconds) => (seconds < 60 ? `${seconds.toFixed(2)} s` : `${(seconds / 60).toFixed(1)} min`);

/** The incidents of a folder, to choose from. */
export class Incidents {
  /** @type {Incident[]} */
  all = [];

  /** @param {(incident: Incident) => void} open */
  constructor(open) {
    this.open = open;
    this.box = /** @type {HTMLDetailsElement} */ (/** @type {unknown} */ (element("incidents")));
  }

  /** @param {Incident[]} incidents of which one alone is no list */
  show(incidents) {
    this.all = incidents;
    this.box.hidden = incidents.length < 2;
    this.box.open = true;
    element("incidents-head").textContent = `${incidents.length} incidents, the last one first; times are UTC`;
    element("incident-list").replaceChildren(...incidents.map((incident) => this.item(incident)));
  }

  /** @param {Incident} incident */
  item(incident) {
    const { words, stations } = aboutOf(incident.causes);
    const [item, button] = [make("li"), make("button")];
    const where = stations.length === 0 ? "" : `station${stations.length > 1 ? "s" : ""} ${stations.join(", ")}`;
    button.type = "button";
    button.append(
      make("span", incident.wall.slice(0, 23).replace("T", " "), "when"),
      make("span", words, "cause"),
      make("span", where, "station"),
      make("span", lengthOf(incident.seconds), "length"),
    );
    button.addEventListener("click", () => this.open(incident));
    item.append(button);
    return item;
  }

  /**
   * Marks the one that is shown; the others stay at hand.
   * @param {Incident} shown
   */
  choose(shown) {
    const buttons = element("incident-list").querySelectorAll("button");
    this.all.forEach((incident, at) => buttons[at].setAttribute("aria-current", String(incident === shown)));
    this.box.open = false;
    const place = `Incident ${this.all.indexOf(shown) + 1} of ${this.all.length}`;
    element("incidents-head").replaceChildren(place, make("span", `: ${titleOf(shown)}`, "title"), ". Choose another");
  }
}
