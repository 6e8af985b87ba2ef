import { scaleLinear } from "d3-scale";
import { select } from "d3-selection";
import { zoom, zoomIdentity } from "d3-zoom";
import { Clock } from "./clock.js";
import { element, make } from "./dom.js";
import { act } from "./keys.js";
import { latest } from "./latest.js";
import { Overview } from "./overview.js";
import { NARROW, Picture } from "./picture.js";
import { duration, grouped } from "./units.js";

/** @typedef {import("d3-scale").Scale} Scale */
/** @typedef {import("./digits.js").Digits} Digits */
/** @typedef {import("../worker/lent.js").Desks} Desk */
/** @typedef {import("../worker/summary.js").Summary} Summary */
/** @typedef {import("../worker/lanes.js").Lane} Lane */
/** @typedef {import("./picture.js").Part} Part */

const RIGHT = 16;
const BIN = 2; // the width of a bin in pixels
const LEAST_BITS = 32; // in view, at least
const MOST_DIGITS = 1200; // bits that are shown, as digits or as levels, at most
const NEAR = 8; // so many pixels beside a mark are taken for it

/** Room for the names of lanes: on a phone, beside few lanes, and beside many, whose names stand in one row. */
const LEFT = { narrow: 74, few: 150, many: 200 };
const MANY_LANES = 9;

/** Whether the parts of the page stand below each other, as the style sheet says. */
const STACKED = matchMedia("(max-width: 67.99rem)");

const [LEFTWARDS, RIGHTWARDS] = ["\u2190", "\u2192"];
const MOVE = 0.4; // the share of what is in view by which it moves

/**
 * An act by its keys, how the help shows them, the name of its button, if it has one, and what it does.
 * @param {string[]} keys
 * @param {string} shown
 * @param {string} name
 * @param {string} words
 * @param {(timeline: Timeline) => void} does
 */
const key = (keys, shown, name, words, does) => ({ keys, shown, name, words, act: does });

/** The keys of the timeline, for the help. */
export const TIMELINE_KEYS = [
  key(["+", "="], "+", "+", "zoom in", (timeline) => timeline.zoomBy(2)),
  key(["-"], "-", "\u2212", "zoom out", (timeline) => timeline.zoomBy(1 / 2)),
  key(["ArrowLeft"], LEFTWARDS, LEFTWARDS, "earlier", (timeline) => timeline.moveBy(-MOVE)),
  key(["ArrowRight"], RIGHTWARDS, RIGHTWARDS, "later", (timeline) => timeline.moveBy(MOVE)),
  key(["Home"], "Home", "Whole", "the whole file", (timeline) => timeline.showAll()),
  key([","], ",", "", "choose the line before", (timeline) => timeline.walk(-1)),
  key(["."], ".", "", "choose the line after", (timeline) => timeline.walk(1)),
  key(["Enter"], "Enter", "", "show what is chosen large, down to its bits", (timeline) => timeline.open()),
];

/** A timeline with a lane for each station: commands above, answers below, and signs where something is wrong. */
export class Timeline {
  stations = make("select", "", "screen");
  where = make("p", "", "small where");
  // Until a file is shown, it has none of these.
  summary = /** @type {Summary} */ (/** @type {unknown} */ (undefined));
  whole = /** @type {Scale} */ (/** @type {unknown} */ (undefined));
  zoom = /** @type {import("d3-zoom").Zoom} */ (/** @type {unknown} */ (undefined));
  clock = new Clock(1);
  width = NaN;

  /**
   * @param {Desk} desk
   * @param {object} acts
   * @param {(row: number) => void} acts.pick what to do where a mark is chosen
   * @param {(step: number) => void} acts.walk what to do to choose the line so many further on
   * @param {(station: number|null) => void} acts.narrow what to do where one station is chosen, or all
   */
  constructor(desk, { pick, walk, narrow }) {
    this.desk = desk;
    this.pick = pick;
    this.walk = walk;
    /** @type {Part|null} */
    this.chosen = null;
    /** @type {number|null} */
    this.station = null;
    this.box = element("timeline");
    this.scroll = make("div", "", "scroll");
    this.scroll.tabIndex = -1; // Firefox would stop there, before the picture in it
    const svg = select(this.scroll).append("svg").attr("tabindex", 0).attr("role", "img");
    this.svg = /** @type {import("d3-selection").Selection<import("d3-zoom").Zoomed<SVGSVGElement>>} */ (svg);
    this.picture = new Picture(this.svg, pick);
    this.box.append(this.tools(narrow), this.scroll);
    this.overview = new Overview(this.box, (first, past) => this.showStretch(first, past));
    this.scroll.before(this.overview.svg.node());
    this.axis = select(this.box).append("svg").attr("class", "axis").attr("aria-hidden", "true");
    this.listen();
    this.ask = latest(
      (/** @type {number} */ first, /** @type {number} */ past) => this.contents(first, past),
      (contents) => this.draw(contents),
    );
    const observer = new ResizeObserver(() => this.summary && this.lay());
    observer.observe(this.box);
    observer.observe(this.svg.node()); // a bar to scroll makes it narrower
  }

  /** @param {(station: number|null) => void} narrow */
  tools(narrow) {
    const tools = make("div", "", "tools");
    for (const { name, words, act } of TIMELINE_KEYS.filter((key) => key.name)) {
      const button = make("button", name, "screen");
      button.type = "button";
      button.title = words;
      button.setAttribute("aria-label", words);
      button.addEventListener("click", () => act(this));
      tools.append(button);
    }
    this.stations.setAttribute("aria-label", "Stations that are shown");
    const chosen = () => (this.stations.value === "" ? null : Number(this.stations.value));
    this.stations.addEventListener("change", () => narrow(chosen()));
    this.where.setAttribute("aria-live", "polite");
    tools.append(this.stations, this.where);
    return tools;
  }

  listen() {
    const node = this.svg.node();
    node.addEventListener("keydown", (event) => act(event, TIMELINE_KEYS, this));
    node.addEventListener("click", (event) => this.pickNear(event));
    this.scroll.addEventListener("wheel", (event) => this.turned(event), { capture: true, passive: true });
  }

  /**
   * Where the page itself is scrolled, a wheel zooms only once the picture was chosen.
   * @param {WheelEvent} event
   */
  turned(event) {
    if (STACKED.matches && document.activeElement !== this.svg.node()) event.stopPropagation();
  }

  /**
   * Shows a file; where it is the one that was shown, what is in view stays.
   * @param {Summary} summary
   * @param {Clock} clock
   * @param {boolean} isSame
   */
  reset(summary, clock, isSame) {
    const kept = isSame && /** @type {Scale|null} */ (this.whole) ? this.scale.domain() : null;
    Object.assign(this, { summary, clock, whole: null });
    if (!isSame) Object.assign(this, { chosen: null, station: null });
    this.stations.replaceChildren(...[null, ...summary.stations].map(optionOf));
    this.stations.value = String(this.station ?? "");
    this.lay();
    if (kept) this.showStretch(...kept);
  }

  /**
   * Shows one station, or all.
   * @param {number|null} station
   */
  narrowTo(station) {
    this.station = station;
    this.stations.value = String(station ?? "");
    this.show();
  }

  get left() {
    if (this.width < NARROW) return LEFT.narrow;
    return this.summary.stations.length > MANY_LANES ? LEFT.many : LEFT.few;
  }

  /** Fits the picture to the width of the page. */
  lay() {
    // Where there are many lanes, they have a bar to scroll, which overview and axis have not.
    const width = Math.max(300, this.scroll.clientWidth);
    for (const part of [this.overview.svg, this.axis]) part.style("width", `${this.scroll.clientWidth}px`);
    const whole = /** @type {Scale|null} */ (this.whole);
    if (width === this.width && whole) return;
    const kept = whole ? this.scale.domain() : null;
    this.width = width;
    this.whole = scaleLinear().range([this.left, width - RIGHT]);
    this.setWhole();
    if (kept) this.showStretch(...kept);
    else this.svg.call(this.zoom.transform, zoomIdentity);
  }

  setWhole() {
    const { first, past } = this.summary;
    this.whole.domain([first, Math.max(past, first + 1)]);
    const [left, right] = this.whole.range();
    this.zoom = zoom()
      .touchable(true)
      .scaleExtent([1, Math.max(1, (past - first) / LEAST_BITS)])
      .translateExtent([
        [left, -Infinity],
        [right, Infinity],
      ])
      .extent([
        [left, 0],
        [right, 1],
      ])
      .on("zoom", () => this.show());
    // Two fingers zoom, and one moves sideways; up and down it scrolls the page.
    this.svg.call(this.zoom).on("dblclick.zoom", null).style("touch-action", "pan-y");
  }

  get scale() {
    return this.svg.node().__zoom.rescaleX(this.whole);
  }

  showAll() {
    this.svg.call(this.zoom.transform, zoomIdentity);
  }

  /** @param {number} factor */
  zoomBy(factor) {
    this.svg.call(this.zoom.scaleBy, factor);
  }

  /**
   * Moves by a share of what is in view.
   * @param {number} share
   */
  moveBy(share) {
    const { k } = this.svg.node().__zoom;
    const [left, right] = this.whole.range();
    this.svg.call(this.zoom.translateBy, (-share * (right - left)) / k, 0);
  }

  /**
   * Brings a stretch into view, and nothing else.
   * @param {number} first
   * @param {number} past
   */
  showStretch(first, past) {
    const [begin, end] = this.whole.domain();
    const [left, right] = this.whole.range();
    const wide = Math.min(end - begin, Math.max(LEAST_BITS, past - first));
    const middle = Math.max(begin + wide / 2, Math.min(end - wide / 2, (first + past) / 2));
    const transform = zoomIdentity
      .translate((left + right) / 2, 0)
      .scale((end - begin) / wide)
      .translate(-this.whole(middle), 0);
    this.svg.call(this.zoom.transform, transform);
  }

  /**
   * Shows a stretch large, with what is about it.
   * @param {number} first
   * @param {number} past
   */
  reveal(first, past) {
    this.showStretch(first - (past - first), past + (past - first));
  }

  /** Shows what is chosen large. */
  open() {
    if (this.chosen) this.reveal(this.chosen.first, this.chosen.past);
  }

  /**
   * Marks a stretch as chosen. Moves only where it is out of view, so that the eye keeps its place.
   * @param {Part & { upTo?: number }} chosen up to the end of its answer, if it has one
   */
  choose(chosen) {
    this.chosen = { ...chosen, past: chosen.upTo ?? chosen.past };
    const [from, to] = this.scale.domain();
    const room = (to - from) * 0.03;
    const isOut = this.chosen.past < from + room || chosen.first > to - room;
    if (isOut) this.showAround((chosen.first + this.chosen.past) / 2);
    else this.show();
  }

  /**
   * Brings a place into the middle.
   * @param {number} middle
   */
  showAround(middle) {
    const [from, to] = this.scale.domain();
    this.showStretch(middle - (to - from) / 2, middle + (to - from) / 2);
  }

  show() {
    const [first, past] = this.scale.domain();
    this.ask(first, past);
  }

  /** @param {number} first @param {number} past */
  async contents(first, past) {
    const [left, right] = this.whole.range();
    const lanes = await this.desk.timeline(first, past, Math.floor((right - left) / BIN), this.station);
    const hasDigits = past - first <= MOST_DIGITS && this.summary.hasBits;
    return { lanes, digits: hasDigits ? await this.digits(lanes, first, past) : [], first, past };
  }

  /**
   * The bits in view, of each line, and what they are.
   * @param {Lane[]} lanes
   * @param {number} first
   * @param {number} past
   * @returns {Promise<Digits[]>}
   */
  async digits(lanes, first, past) {
    const numbers = this.summary.isOfTwo ? [1, 2] : [1];
    const from = Math.max(0, Math.floor(first));
    const bits = await Promise.all(numbers.map((line) => this.desk.bitsBetween(line - 1, from, Math.ceil(past))));
    /** @param {import("../worker/lanes.js").Track} track */
    const ofFrames = ({ isSign, id }) => !isSign && id !== "damage";
    const marks = lanes.flatMap(({ tracks }) => tracks.filter(ofFrames).flatMap((track) => track.marks ?? []));
    const structures = await this.desk.structures(marks.map(({ row }) => row));
    return numbers.map((line, at) => ({
      name: numbers.length > 1 ? `Bits, line ${line}` : "Bits",
      ...{ bits: bits[at], structures: structures.filter((some) => some.line === line) },
    }));
  }

  /** @param {Part & { lanes: Lane[], digits: Digits[] }} contents */
  draw({ lanes, digits, first, past }) {
    const scale = scaleLinear().domain([first, past]).range(this.whole.range());
    const { findings, warnings } = this.summary;
    const told = { lanes, digits, scale, clock: this.clock, width: this.width, chosen: this.chosen };
    this.picture.draw({ ...told, stretches: findings.filter(({ over }) => over !== "") });
    this.picture.drawAxis(this.axis, { ...told, warnings });
    this.overview.draw(this.whole, this.width, { findings, warnings, rate: this.clock.rate }, [first, past]);
    this.describe(lanes, first, past);
    if (this.svg.node().__zoom.k === 1) this.keepForPrint();
  }

  /** A report on paper has the whole, whatever is in view. */
  keepForPrint() {
    const copies = [this.svg.node(), this.axis.node()].map((node) => node.cloneNode(true));
    element("timeline-print").replaceChildren(...copies);
  }

  /**
   * Ticks are narrow: beside one, the nearest of its lane is taken.
   * @param {MouseEvent} event
   */
  pickNear(event) {
    if (/** @type {Element} */ (event.target).classList.contains("mark")) return;
    const { left, top, width } = this.svg.node().getBoundingClientRect();
    const [x, y] = [event.clientX - left, event.clientY - top].map((pixels) => (pixels * this.width) / width);
    const nearest = this.picture.nearest(x, y);
    if (nearest !== null && nearest.away <= NEAR) this.pick(nearest.row);
  }

  /**
   * Says in words what is in view.
   * @param {Lane[]} lanes
   * @param {number} first
   * @param {number} past
   */
  describe(lanes, first, past) {
    const stretch = past - first;
    const [from, to] = [first, past].map((place) => this.clock.at(place, stretch));
    const places = `places ${grouped(Math.floor(first))} to ${grouped(Math.ceil(past))}`;
    this.where.textContent = `${from} to ${to}${this.clock.unit} (${duration(stretch, this.clock.rate)})`;
    this.where.title = places;
    const counts = lanes.map(({ name, isStation, tracks }) => {
      const told = tracks.map(({ id, count }) => `${count} ${id}`).join(", ");
      return `${isStation ? "station " : ""}${name}: ${told}`;
    });
    this.svg.attr("aria-label", `Timeline, ${this.where.textContent}, ${places}; ${counts.join("; ")}.`);
  }
}

/**
 * A station to choose, or all.
 * @param {number|null} station
 */
function optionOf(station) {
  const option = make("option", station === null ? "all stations" : `station ${station}`);
  option.value = String(station ?? "");
  return option;
}
