import { element, make } from "./dom.js";
import { EXCHANGED, faultWords, wordsOf } from "./words.js";

/** @typedef {import("../../../scripts/modules/recording/doubts.js").Warning} Warning */

/** What there is to do about a warning. */
const NAMES = {
  edge: "Take the bits at the other edge",
  invert: "Read it inverted",
  wires: "Choose other wires",
  second: "Show it",
};

/**
 * What the page can do.
 * @typedef {keyof typeof NAMES} Act
 */

/** What stands above all else: a fault of the file, warnings of the recording, and what was guessed. */
export class Banners {
  /** @param {(act: Act, warning?: Warning) => void} mend what to do about a warning */
  constructor(mend) {
    this.mend = mend;
  }

  /**
   * @param {{ fault: string|null, warnings: Warning[], count: number }} summary
   * @param {string} guess
   * @param {import("./clock.js").Clock} clock
   */
  show({ fault, warnings, count }, guess, clock) {
    element("fault").hidden = fault === null;
    element("fault").textContent = fault === null ? "" : faultWords(fault, count > 0);
    element("warnings").hidden = warnings.length === 0;
    const [wires, others] = [true, false].map((are) => warnings.filter(({ sort }) => EXCHANGED.has(sort) === are));
    const firstEdge = others.find((warning) => wordsOf(warning, clock).act === "edge");
    // What else is doubtful comes of wires in each other's place: these are chosen first.
    const isCured = (/** @type {Warning} */ warning) => wires.length === 0 || wordsOf(warning, clock).act === "second";
    const ofOthers = others.map((warning) => this.item(warning, clock, isCured(warning), warning === firstEdge));
    element("warning-list").replaceChildren(...wires.map((warning) => this.item(warning, clock)), ...ofOthers);
    element("guess").hidden = guess === "";
    element("guess").replaceChildren(guess, ...(guess === "" ? [] : [this.button("wires")]));
  }

  /**
   * A warning, with what to do, if that is a cure, in a report no more than to show it; the other edge is offered once.
   * @param {Warning} warning
   * @param {import("./clock.js").Clock} clock
   * @param {boolean} isCured
   * @param {boolean} isFirstEdge
   */
  item(warning, clock, isCured = true, isFirstEdge = false) {
    const { text, cure, act } = wordsOf(warning, clock);
    const item = make("li", "");
    item.append(make("strong", text), ...(cure && isCured ? [` ${cure}`] : []));
    const isOffered = element("listing-data") ? act === "second" : isCured && (act !== "edge" || isFirstEdge);
    if (act !== "" && isOffered) item.append(this.button(act, warning));
    return item;
  }

  /** @param {Act} act @param {Warning} [warning] */
  button(act, warning) {
    const button = make("button", NAMES[act], "screen");
    button.type = "button";
    button.addEventListener("click", () => this.mend(act, warning));
    return button;
  }
}
