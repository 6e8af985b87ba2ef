import { RATE } from "../../../scripts/modules/port1.js";
import { Clock } from "./clock.js";
import { element, make } from "./dom.js";
import { Lines } from "./lines.js";
import { Sentences } from "./sentences.js";
import { Tabs } from "./tabs.js";
import { Timeline } from "./timeline.js";
import { duration, grouped } from "./units.js";

/** @typedef {import("../worker/lent.js").Desks} Desk */
/** @typedef {import("../worker/summary.js").Summary} Summary */

const NOTHING_CHOSEN = "Nothing is chosen: choose a mark, a line, or a time of a sentence.";

/** About a line that is no stretch, so many seconds are shown. */
const ABOUT_SECONDS = 0.3;

/** @typedef {import("./keys.js").Key & { act: (shown: Navigation, key: string) => void }} NavigationKey */

/** @type {NavigationKey[]} */
export const NAVIGATION_KEYS = [
  { keys: ["n"], shown: "n", words: "the next place of the sentences", act: (shown) => shown.sentences.step(1) },
  { keys: ["p"], shown: "p", words: "the place before", act: (shown) => shown.sentences.step(-1) },
  { keys: ["t"], shown: "t", words: "to the timeline", act: (shown) => shown.timeline.svg.node().focus() },
  { keys: ["l"], shown: "l", words: "to the listing", act: (shown) => shown.focusListing("lines") },
  { keys: ["/"], shown: "/", words: "find in the listing", act: (shown) => shown.focusListing("query-text") },
  { keys: ["g"], shown: "g", words: "go to a second", act: (shown) => shown.focusListing("query-second") },
  { keys: [..."12345"], shown: "1 2 3 4 5", words: "the tabs", act: ({ tabs }, key) => tabs.openAt(Number(key) - 1) },
];

/** What shows places: the sentences, the timeline and the listing. A place that is chosen in one is shown in all. */
export class Navigation {
  /** @param {Desk} desk */
  constructor(desk) {
    this.desk = desk;
    this.clock = new Clock(RATE);
    this.tabs = new Tabs();
    this.lines = new Lines(desk, (row) => this.pickLine(row), (row) => this.openLine(row));
    this.timeline = new Timeline(desk, {
      pick: (row) => this.pickMark(row),
      walk: (step) => this.lines.move(step),
      narrow: (station) => this.narrow(station),
    });
    this.sentences = new Sentences((place) => this.go(place), () => this.tabs.open("table"));
    element("query").addEventListener("submit", (event) => event.preventDefault());
    element("query").addEventListener("input", () => this.search());
    element("query-second").addEventListener("change", () => this.goToSecond());
  }

  /**
   * Shows what a file has.
   * @param {Summary} summary
   * @param {Clock} clock
   * @param {boolean} isSame whether it is the file that is shown, read once more
   */
  async reset(summary, clock, isSame) {
    this.clock = clock;
    this.timeline.reset(summary, clock, isSame);
    if (!isSame) this.forget();
    this.lines.setClock(clock);
    await this.search(isSame ? this.lines.top : 0);
  }

  /** Another file: nothing is chosen, and the query is empty. */
  forget() {
    element("query").reset();
    this.lines.chosen = -1;
    this.lines.at = -1;
    element("chosen").textContent = NOTHING_CHOSEN;
  }

  /** @param {"lines"|"query-text"|"query-second"} id */
  focusListing(id) {
    this.tabs.open("listing");
    element(id).focus();
  }

  async search(top = 0) {
    const names = /** @type {const} */ (["text", "kind", "station", "type"]);
    const [text, kind, station, type] = names.map((id) => element(`query-${id}`).value);
    const found = await this.desk.choose({ text, kind, station, type, isBusy: !element("query-idle").checked });
    if (!found) return;
    const { count, idle } = found;
    const lines = count === 1 ? "1 line" : `${grouped(count)} lines`;
    element("query-count").textContent = lines;
    element("idle-count").textContent = idle > 0 ? ` (${grouped(idle)})` : "";
    this.lines.reset(count, top);
  }

  /**
   * A line was chosen: the timeline marks where it is.
   * @param {number} row
   */
  async pickLine(row) {
    this.showChosen(await this.desk.placesOf(row));
  }

  /**
   * The chosen line was chosen again: the timeline shows it large, with its bits.
   * @param {number} row
   */
  async openLine(row) {
    const { first, upTo } = await this.desk.placesOf(row);
    this.timeline.reveal(first, upTo);
  }

  /**
   * A mark was chosen: the listing shows its line.
   * @param {number} row
   */
  async pickMark(row) {
    this.showChosen(await this.desk.placesOf(row));
    await this.showLine(row);
  }

  /**
   * One station was chosen, or all: timeline and listing show it.
   * @param {number|null} station
   */
  async narrow(station) {
    this.timeline.narrowTo(station);
    element("query-station").value = station === null ? "" : String(station);
    await this.search();
  }

  /** @param {number} row */
  async showLine(row) {
    if (element("pane-listing").hidden) this.tabs.open("listing");
    let position = await this.desk.positionOf(row);
    const [line] = await this.desk.lines(position, 1);
    if (line?.row !== row) {
      // The query left it out: it is shown all the same, without the query.
      element("query").reset();
      element("query-idle").checked = / idle$/.test((await this.desk.placesOf(row)).text);
      await this.search();
      position = await this.desk.positionOf(row);
    }
    this.lines.reveal(position, row);
  }

  /**
   * A place of a sentence was chosen: timeline and listing show it.
   * @param {import("./sentences.js").Goal} place
   */
  async go(place) {
    const row = place.row < 0 ? await this.desk.rowFrom(place.first) : place.row;
    const about = await this.desk.placesOf(row);
    const text = /** @type {string} */ (place.short); // which a stretch has
    const stretch = { first: place.first, past: place.past, upTo: place.past, text, reply: null };
    const shown = place.isStretch ? { ...about, ...stretch } : about;
    const length = place.isStretch ? place.past - place.first : (ABOUT_SECONDS / 2) * this.clock.rate;
    const middle = (shown.first + shown.past) / 2;
    if (this.timeline.station !== null) await this.narrow(null);
    this.timeline.chosen = { ...shown, past: shown.upTo };
    this.timeline.showStretch(middle - length, middle + length);
    const isStacked = element("timeline-pane").offsetTop > element("sentences").offsetTop + 20;
    if (isStacked) element("timeline-pane").scrollIntoView({ block: "start" });
    this.showChosen(shown);
    await this.showLine(row);
  }

  /** @param {number} where */
  async goTo(where) {
    const place = Math.round(where);
    const row = await this.desk.rowFrom(place);
    if (row >= 0) await this.go({ row, first: place, past: place + 1 });
  }

  async goToSecond() {
    const place = this.clock.placeOf(element("query-second").value.trim());
    const row = place === null ? -1 : await this.desk.rowFrom(place);
    if (row >= 0) await this.pickMark(row);
  }

  /**
   * What a number of the verdict counts.
   * @param {import("./verdict.js").Counted} name
   */
  async showKind(name) {
    if (name === "gap") this.sentences.visitStretch();
    if (name === "damage") this.tabs.open("damage");
    if (name === "gap" || name === "damage") return;
    this.tabs.open("listing");
    element("query").reset();
    element("query-kind").value = name;
    await this.search();
  }

  /**
   * Says what is chosen, and marks it in the timeline.
   * @param {import("../worker/desk.js").Places} place
   */
  showChosen(place) {
    const { first, past, text, reply } = place;
    const { rate } = this.clock;
    const after = reply === null || reply === undefined ? "" : `, its answer after ${duration(reply, rate)}`;
    const when = this.clock.moment(first);
    const what = text.replace(/^(?:[12] )?\d+ \d+ /, "");
    const length = duration(past - first, rate);
    element("chosen").replaceChildren(make("strong", when), ` for ${length}${after}: ${what}`);
    this.timeline.choose(place);
  }
}
