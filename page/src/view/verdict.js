import { counted } from "../../../scripts/modules/text.js";
import { element, make } from "./dom.js";
import { VERDICTS } from "./signs.js";
import { EXCHANGED } from "./words.js";

/** @typedef {import("./page.js").Summary} Summary */
/** @typedef {keyof typeof COUNTS} Counted */

/** The word of a verdict, which is read from afar. */
const WORDS = { fault: "Fault", doubt: "Look closer", well: "No fault found", unknown: "Not all judged" };

const NOT_JUDGED = "Not judged";
const NO_FRAMES = "Nothing to judge";
const CROSSED = "Wires seem to be in each other's place";
const WELL = "Every answer came in time, nothing is damaged, and no gap stands out.";

/** What is counted, in the singular and in the plural. */
const COUNTS = {
  gap: ["gap", "gaps"],
  missing: ["missing", "missing"],
  late: ["late", "late"],
  spoilt: ["spoilt", "spoilt"],
  damage: ["damaged", "damaged"],
};

/**
 * Counts that need no dictionary.
 * @type {Set<Counted>}
 */
const ALWAYS = new Set(["gap", "damage"]);

/** The most findings that the verdict names. */
const MOST_TOLD = 2;

/** The verdict: a sign, a word, the worst in short, and how many there are of each. */
export class Verdict {
  /** @param {(name: Counted) => void} pick what to do where a number is chosen */
  constructor(pick) {
    this.pick = pick;
  }

  /** @param {Summary} summary */
  show({ verdict, findings, counts, frames, warnings, fault }) {
    const section = element("verdict");
    section.className = `${verdict.level}-level`;
    /** @type {SVGPathElement} */ (section.querySelector("path")).setAttribute("d", VERDICTS[verdict.level]);
    element("verdict-word").textContent = wordOf(verdict, frames);
    const areExchanged = warnings.some(({ sort }) => EXCHANGED.has(sort));
    const doubts = areExchanged ? [CROSSED] : doubtsOf(fault, warnings);
    element("verdict-short").textContent = shortOf(verdict, findings, doubts, areExchanged);
    /** @param {Counted} name */
    const isJudged = (name) => ALWAYS.has(name) || (name === "late" ? verdict.isLateJudged : verdict.isJudged);
    /** @param {Counted} name */
    const isKnown = (name) => counts[name] > 0 || (frames > 0 && isJudged(name));
    /** @param {Counted} name */
    const countOf = (name) => this.count(name, isKnown(name) ? counts[name] : null);
    element("counts").replaceChildren(.../** @type {Counted[]} */ (Object.keys(COUNTS)).map(countOf));
  }

  /**
   * A number, which leads to what it counts; a dash where that was not judged.
   * @param {Counted} name
   * @param {number|null} count
   */
  count(name, count) {
    const item = make("li", "", count ? "" : "none");
    const button = make("button");
    button.type = "button";
    button.disabled = !count;
    button.append(make("strong", count === null ? "\u2013" : String(count)), COUNTS[name][count === 1 ? 0 : 1]);
    button.addEventListener("click", () => this.pick(name));
    item.append(button);
    return item;
  }
}

/** @param {Summary["verdict"]} verdict @param {number} frames */
function wordOf({ level, isJudged }, frames) {
  if (level !== "unknown") return WORDS[level];
  if (frames === 0) return NO_FRAMES;
  return isJudged ? WORDS.unknown : NOT_JUDGED;
}

/** @param {Summary["fault"]} fault @param {Summary["warnings"]} warnings */
function doubtsOf(fault, warnings) {
  if (fault && warnings.length > 0) return ["The file has a fault, and the recording is doubtful"];
  return [...(fault ? ["The file has a fault"] : []), ...(warnings.length > 0 ? ["The recording is doubtful"] : [])];
}

/**
 * The worst in short, and how many more there are, or else what was not judged. A doubtful recording comes after the
 * worst fault, and before anything else; wires in each other's place come before all that they may have made.
 * @param {Summary["verdict"]} verdict
 * @param {Summary["findings"]} findings
 * @param {string[]} doubts
 * @param {boolean} areFirst
 */
function shortOf({ level, lacks }, findings, doubts, areFirst) {
  if (level === "well") return WELL;
  const own = findings.map(({ short }) => short).filter((short) => short);
  if (own.length + doubts.length === 0) return lacks[0]?.shown ?? "";
  const all = level === "fault" && !areFirst ? [...own.slice(0, 1), ...doubts, ...own.slice(1)] : [...doubts, ...own];
  const rest = all.length - MOST_TOLD;
  const more = rest > 0 ? [counted(rest, "more finding")] : [];
  return [...all.slice(0, MOST_TOLD), ...more].join(" \u00b7 ");
}
