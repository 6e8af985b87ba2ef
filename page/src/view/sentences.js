import { Clock } from "./clock.js";
import { element, make } from "./dom.js";
import { signOf } from "./signs.js";

/** @typedef {import("../../../scripts/modules/findings/findings.js").Finding} Finding */
/** @typedef {import("../../../scripts/modules/statistics/rests.js").Place} Place */

/** Of a file that is shorter than so many seconds, times have six decimals. */
const SHORT = 0.1;

/** How many places of a sentence are shown as buttons. */
const MOST_TIMES = 6;

/** @type {Partial<Record<string, number>>} */
const STEPS = { ArrowRight: 1, ArrowDown: 1, ArrowLeft: -1, ArrowUp: -1 };

/**
 * A place to go to: of a stretch with what is said of it.
 * @typedef {Place & { isStretch?: boolean, short?: string }} Goal
 */

/**
 * A place of a sentence, the sentence's item, and the button of its time, if it has one.
 * @typedef {Place & { isStretch: boolean, short: string, item: HTMLElement, button: HTMLButtonElement|null }} Stop
 */

/** The sentences, each with the times of its places. */
export class Sentences {
  /**
   * @param {(place: Goal) => void} go what to do where a place is chosen
   * @param {() => void} more what to do where a sentence refers to the table
   */
  constructor(go, more) {
    this.go = go;
    this.more = more;
    /** @type {Stop[]} */
    this.stops = []; // the places of the sentences, in their order, with what marks them
    this.clock = new Clock(1);
    this.stretch = 1; // so many bits the digits of times suit
    this.at = -1;
  }

  /**
   * @param {Finding[]} findings
   * @param {string[]} well what is said where there are none
   * @param {{ sort: string, shown: string }[]} lacks what was not judged, and notes
   * @param {Clock} clock
   * @param {number} length of the file, in bits
   */
  show(findings, well, lacks, clock, length) {
    Object.assign(this, { clock, stretch: length < SHORT * clock.rate ? clock.rate / 1000 : clock.rate });
    this.stops = [];
    this.at = -1;
    const isWell = findings.length === 0;
    element("findings-head").textContent = isWell ? "What was found" : "What is wrong, the most serious first";
    element("sentences").replaceChildren(...findings.map((finding) => this.sentence(finding)));
    const told = [...(isWell ? well.map((shown) => ({ sort: "well", shown })) : []), ...lacks];
    element("lacks").replaceChildren(...told.map(({ sort, shown }) => make("li", shown, `is-${sort}`)));
  }

  /**
   * A sentence, whose words lead to its first place, with the times of its places.
   * @param {Finding} finding
   */
  sentence(finding) {
    const item = make("li", "", `is-${finding.level}`);
    const words = make("button", finding.text, "jump");
    words.type = "button";
    words.disabled = finding.places.length === 0 && finding.sort !== "more";
    item.append(signOf(finding.sign), words);
    const from = this.stops.length;
    const times = this.times(finding, item);
    if (times.childElementCount > 0) item.append(times);
    words.addEventListener("click", () => (finding.sort === "more" ? this.more() : this.visit(from)));
    return item;
  }

  /**
   * The times as buttons: one of them is reached by Tab, the others by the arrows.
   * @param {Finding} finding
   * @param {HTMLElement} item
   */
  times({ places, isStretch, count, short }, item) {
    const box = make("div", "", "times");
    places.forEach((place, at) => {
      const when = this.clock.moment(place.first, this.stretch);
      const button = at < MOST_TIMES ? this.button(when, this.stops.length) : null;
      if (button) box.append(button);
      this.stops.push({ ...place, isStretch, short, item, button });
    });
    const rest = places.length > MOST_TIMES ? count - MOST_TIMES : 0;
    if (rest > 0) box.append(this.button(`${rest} more`, this.stops.length - places.length + MOST_TIMES, "more"));
    const buttons = /** @type {HTMLElement[]} */ ([...box.children]);
    buttons.forEach((button, at) => (button.tabIndex = at === 0 ? 0 : -1));
    box.addEventListener("keydown", (event) => moveWithin(box, event));
    return box;
  }

  /** @param {string} text @param {number} at */
  button(text, at, className = "") {
    const button = make("button", text, className);
    button.type = "button";
    button.addEventListener("click", () => this.visit(at));
    return button;
  }

  /**
   * Goes to a place of a sentence.
   * @param {number} at
   */
  visit(at) {
    if (this.stops.length === 0) return;
    this.at = (at + this.stops.length) % this.stops.length;
    const stop = this.stops[this.at];
    for (const { item, button } of this.stops) {
      item.classList.remove("chosen");
      button?.classList.remove("chosen");
    }
    stop.item.classList.add("chosen");
    stop.button?.classList.add("chosen");
    stop.item.scrollIntoView({ block: "nearest" });
    this.go(stop);
  }

  /**
   * Goes some places on.
   * @param {number} by
   */
  step(by) {
    this.visit(this.at < 0 && by < 0 ? -1 : this.at + by);
  }

  /** Goes to the first stretch. */
  visitStretch() {
    this.visit(this.stops.findIndex(({ isStretch }) => isStretch));
  }
}

/** @param {HTMLElement} box @param {KeyboardEvent} event */
function moveWithin(box, event) {
  const step = STEPS[event.key];
  if (!step) return;
  event.preventDefault();
  const buttons = /** @type {HTMLElement[]} */ ([...box.children]);
  const at = buttons.indexOf(/** @type {HTMLElement} */ (event.target));
  const next = buttons[(at + step + buttons.length) % buttons.length];
  for (const button of buttons) button.tabIndex = button === next ? 0 : -1;
  next.focus();
}
