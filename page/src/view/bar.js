import { element, make } from "./dom.js";
import { grouped } from "./units.js";

/**
 * How long a file is: its bits, and a recording of which some have no places.
 * @param {{ first: number, past: number, lacking: number }} summary
 * @param {number} rate
 */
export function lengthOf({ first, past, lacking }, rate) {
  const seconds = (past - first) / rate;
  const shown = `${seconds.toFixed(3)} s`;
  return lacking > 0 ? `${(seconds + lacking).toFixed(3)} s, ${shown} of them with a clock` : shown;
}

/** The slim bar: what file this is, and how it was read. */
export class Bar {
  /** @param {() => void} open what to do where the dictionary is chosen */
  constructor(open) {
    this.chip = make("button", "", "chip");
    this.chip.type = "button";
    this.chip.id = "dictionary-chip";
    this.chip.addEventListener("click", open);
    this.state = { text: "none", isGood: false };
    this.name = "";
  }

  /**
   * @param {{ first: number, past: number, lacking: number, isOfTwo: boolean }} summary
   * @param {{ rate: number, form: string }} job
   * @param {{ name: string, date: string, hasDictionary: boolean }} file whose name and date may be empty
   */
  show(summary, job, { name, date, hasDictionary }) {
    /** @param {string} text */
    const fact = (text, className = "") => make("li", text, className);
    const chip = fact("");
    chip.append(this.chip);
    element("facts").replaceChildren(
      ...(name ? [fact(name, "name")] : []),
      fact(lengthOf(summary, job.rate)),
      fact(`${grouped(job.rate)} bits/s, ${summary.isOfTwo ? "two lines" : "one line"}`),
      ...(date ? [fact(date, "date")] : []),
      ...(hasDictionary ? [chip] : []),
    );
    this.draw();
  }

  /**
   * Says which dictionary there is, and how it stands.
   * @param {string} name
   * @param {{ text: string, isGood: boolean }} state
   */
  setDictionary(name, state) {
    Object.assign(this, { name, state });
    this.draw();
  }

  draw() {
    const { text, isGood } = this.state;
    this.chip.textContent = `Dictionary: ${this.name ? `${this.name}, ` : ""}${text}`;
    this.chip.classList.toggle("warn", !isGood);
  }
}
