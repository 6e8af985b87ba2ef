import { counted } from "../../../scripts/modules/text.js";
import { element, make, save } from "./dom.js";

/** After so many milliseconds without a key, an edited dictionary is read. */
const PAUSE = 800;

/** @typedef {import("../../../scripts/modules/dictionary/check.js").Remark} Remark */
/** @typedef {import("../../../scripts/modules/dictionary/schema.js").Schema} Schema */

/**
 * A dictionary: the user's, which is kept for the next files; one that came with what is shown; or a draft of that.
 * @typedef {{ text: string, name: string, from: "user"|"file"|"draft" }} Given
 */

/** @type {Given} */
const NONE = { text: "", name: "", from: "user" };

const DRAFTED = "drafted from what is on the bus";

/** The dictionary: its text, what is wrong with it, and what is read with it. */
export class DictionaryPane {
  own = NONE; // the user's, also while another is shown
  shown = NONE;

  /**
   * @param {{ check: (text: string, schema: Schema) => Promise<Remark[]> }} desk
   * @param {Schema} schema
   * @param {import("./bar.js").Bar} bar
   * @param {() => Promise<void>} read what to do where an edit is done
   */
  constructor(desk, schema, bar, read) {
    this.desk = desk;
    this.schema = schema;
    this.bar = bar;
    this.read = read;
    /** @type {number|undefined} */
    this.timer = undefined;
    this.field = element("dictionary");
    this.field.addEventListener("input", () => this.edited());
    element("save-dictionary").addEventListener("click", () => save("dictionary.toml", new Blob([this.field.value])));
  }

  /** The text by which a file is read; without one, it is read by a draft. */
  get text() {
    return this.shown.from === "draft" ? "" : this.shown.text;
  }

  /**
   * Takes a dictionary in place of the one that is there.
   * @param {Given} given
   */
  take(given) {
    clearTimeout(this.timer);
    this.field.value = given.text;
    return this.hold(given);
  }

  /**
   * Shows what another file is read by: the user's own, if there is one.
   * @returns {Promise<number>}
   */
  forget() {
    return this.take(this.own);
  }

  /**
   * Shows the draft by which a file was read, or that it was read without one.
   * @param {string|null} draft
   */
  async showDraft(draft) {
    if (this.text.trim() !== "") return;
    await this.take(draft === null ? NONE : { text: draft, name: "", from: "draft" });
  }

  /** @param {Given} given whose text is in the field */
  hold(given) {
    this.shown = given;
    if (given.from === "user") this.own = given;
    return this.check();
  }

  /** After an edit, the file is read again by itself, where the dictionary has no fault. An edited draft is the user's. */
  async edited() {
    clearTimeout(this.timer);
    const { name, from } = this.shown;
    const text = this.field.value;
    const faults = await this.hold({ text, name, from: from === "draft" ? "user" : from });
    if (text !== this.text || faults > 0) return;
    clearTimeout(this.timer);
    this.timer = setTimeout(() => this.read(), PAUSE);
  }

  /**
   * Says what is wrong with it.
   * @returns {Promise<number>} how many faults there are
   */
  async check() {
    const { text, name, from } = this.shown;
    const findings = text.trim() ? await this.desk.check(text, this.schema) : [];
    if (text !== this.shown.text) return 0;
    const faults = findings.filter((finding) => finding.isFault).length;
    element("findings").replaceChildren(...findings.map(itemOf));
    const sound = from === "draft" ? DRAFTED : "no fault";
    const state = !text.trim() ? "none" : faults > 0 ? counted(faults, "fault") : sound;
    element("dictionary-state").textContent = faults > 0 ? `${state}: what is shown was read without it` : state;
    element("tab-dictionary").textContent = faults > 0 ? `Dictionary (${counted(faults, "fault")})` : "Dictionary";
    this.bar.setDictionary(name, { text: state, isGood: state === "no fault" });
    return faults;
  }
}

/**
 * What is found in a dictionary, with its line.
 * @param {Remark} finding
 */
function itemOf({ line, text, isFault }) {
  return make("li", `line ${line}: ${text}`, isFault ? "fault" : "");
}
