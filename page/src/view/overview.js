import { select } from "d3-selection";
import { placeOf } from "./words.js";

/** @typedef {import("d3-scale").Scale} Scale */

const HEIGHT = 16;
const BAR = { top: 2, height: 12 };
const LEAST_WIDTH = 2;

/** The whole file in one line, with what is wrong, and which part of it is in view, to be dragged. */
export class Overview {
  /** @type {number|undefined} how far before the pointer what is in view begins, while it is dragged */
  grip = undefined;
  whole = /** @type {Scale} */ (/** @type {unknown} */ (undefined)); // until it is drawn
  width = NaN;

  /** @param {HTMLElement} box @param {(first: number, past: number) => void} show a stretch */
  constructor(box, show) {
    this.show = show;
    /** @type {number[]} */
    this.view = [0, 1];
    this.svg = select(box).append("svg").attr("class", "overview").attr("aria-hidden", "true");
    const node = this.svg.node();
    node.addEventListener("pointerdown", (event) => this.take(event));
    node.addEventListener("pointermove", (event) => this.grip !== undefined && this.move(event));
    for (const name of ["pointerup", "pointercancel"]) node.addEventListener(name, () => delete this.grip);
  }

  /**
   * Takes hold of what is in view where it is touched, or else by its middle.
   * @param {PointerEvent} event
   */
  take(event) {
    const place = this.placeAt(event);
    const [first, past] = this.view;
    this.grip = place >= first && place <= past ? place - first : (past - first) / 2;
    this.svg.node().setPointerCapture(event.pointerId); // what is below the pointer is drawn anew meanwhile
    this.move(event);
  }

  /** @param {PointerEvent} event */
  move(event) {
    const [first, past] = this.view;
    const begin = this.placeAt(event) - /** @type {number} */ (this.grip);
    this.show(begin, begin + past - first);
  }

  /** @param {PointerEvent} event */
  placeAt(event) {
    const { left, width } = this.svg.node().getBoundingClientRect();
    return this.whole.invert(((event.clientX - left) * this.width) / width);
  }

  /**
   * @param {Scale} whole
   * @param {number} width
   * @param {Pick<import("../worker/summary.js").Summary, "findings"|"warnings"> & { rate: number }} told
   * @param {[first: number, past: number]} view
   */
  draw(whole, width, { findings, warnings, rate }, view) {
    Object.assign(this, { whole, width, view });
    const { svg } = this;
    svg.attr("viewBox", `0 0 ${width} ${HEIGHT}`);
    svg.selectAll("*").remove();
    const [left, right] = whole.range();
    svg.append("text").attr("x", 4).attr("y", BAR.height).attr("class", "about").text("whole");
    this.box("overview-ground", left, right, BAR.top, BAR.height);
    const half = BAR.height / 2;
    for (const { sign, places, isStretch } of findings) {
      const top = isStretch ? BAR.top : BAR.top + half / 2;
      for (const { first, past } of places) this.box(`sign ${sign}`, whole(first), whole(past), top, half);
    }
    for (const place of warnings.map((warning) => placeOf(warning, rate))) {
      if (place !== null) this.box("sign warning", whole(place), 0, BAR.top + half, half);
    }
    const [begin, end] = [Math.max(left, whole(view[0])), Math.min(right, whole(view[1]))];
    this.box("overview-view", begin, Math.max(begin + 3, end), 1, BAR.height + 2);
  }

  /** @param {string} className @param {number} begin @param {number} end @param {number} top @param {number} height */
  box(className, begin, end, top, height) {
    const box = this.svg.append("rect").attr("class", className).attr("x", begin).attr("y", top);
    box.attr("width", Math.max(LEAST_WIDTH, end - begin)).attr("height", height);
  }
}
