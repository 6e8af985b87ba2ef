import { counted } from "../../../scripts/modules/text.js";
import { titleOf } from "../../../scripts/modules/watch/words.js";
import { Bar, lengthOf } from "./bar.js";
import { commandOf } from "./command.js";
import { element, make } from "./dom.js";
import { grouped } from "./units.js";

/** @typedef {import("../worker/summary.js").Summary} Summary */
/** @typedef {import("./clock.js").Clock} Clock */
/** @typedef {import("./incidents.js").Incident} Incident */
/** @typedef {import("./job.js").Asked} Asked */
/** @typedef {import("./job.js").Embedded} Embedded */

/**
 * What the page knows of itself, and a report of its recording.
 * @typedef {object} About
 * @property {string} version
 * @property {string} decoder the SHA-256 of the decoder with 64-bit memory, and of that with 32-bit memory
 * @property {string} narrow
 * @property {import("./dictionary.js").Schema} schema of dictionaries
 * @property {Record<string, string>} [recording] what is known of its file
 * @property {string[]} [notes] on it
 * @property {number} [bits] that it has
 * @property {string} [begin] when its place 0 was
 */

/** @typedef {About & { title: string, rate: number, dictionary: string, command: string }} Report */

/**
 * What is said of a recording's file.
 * @type {Record<string, string>}
 */
const NAMES = { name: "File", date: "Date", size: "Octets", form: "Form", wires: "Wires", sha256: "SHA-256" };

/** What the page says of a file as a whole: its title, its bar, its length, and what is known of the file. */
export class Heading {
  /**
   * @param {About} about
   * @param {boolean} isNarrow whether the decoder has 32-bit memory
   * @param {() => void} openDictionary
   */
  constructor(about, isNarrow, openDictionary) {
    this.about = about;
    this.bar = new Bar(openDictionary);
    const { version, decoder, narrow } = about;
    const used = isNarrow ? narrow : decoder;
    element("version").textContent = `Port 1 analyser ${version}, decoder ${used.slice(0, 16)}.`;
    element("narrow").hidden = !isNarrow;
  }

  /**
   * How much there is, and when it was, as far as that is known.
   * @param {Summary} summary
   * @param {Clock} clock
   */
  showLength(summary, { rate, begin, dayTime }) {
    const { frames, damaged, beside } = summary;
    const when = dayTime === null ? "" : ` It begins on ${begin}.`;
    const others = beside > 0 ? `, beside ${beside} where the recording lacks samples,` : "";
    const pieces = counted(damaged, "damaged piece");
    element("head").textContent = `${counted(frames, "frame")} and ${pieces}${others} in ${lengthOf(summary, rate)}.${when}`;
  }

  /**
   * The bar and the title of a report.
   * @param {Summary} summary
   * @param {Embedded} job
   * @param {Clock} clock
   */
  showReport(summary, job, { begin }) {
    const { recording, title, command } = /** @type {Report} */ (this.about);
    const date = begin || (recording?.date ?? "");
    this.bar.show(summary, job, { name: recording?.name ?? "", date, hasDictionary: false });
    element("title").textContent = title;
    element("command").textContent = command;
  }

  /**
   * The bar and the title of a file.
   * @param {Summary} summary
   * @param {Asked} job
   * @param {Clock} clock
   * @param {Incident|null} incident whose file it is
   */
  showFile(summary, job, { begin }, incident) {
    const { file, form, channels } = job;
    const date = incident ? "" : begin || dateOf(file);
    const name = incident ? titleOf(incident) : file.name;
    this.bar.show(summary, job, { name, date, hasDictionary: form !== "listing" });
    element("title").textContent = "Port 1";
    document.title = `${element("verdict-word").textContent}: ${name}, Port 1`;
    /** @type {Record<string, string>} */
    const wires = channels.length > 0 ? { wires: channels.join(", ") } : {};
    this.showRecording({ name: file.name, date, size: grouped(file.size), form, ...wires });
    element("command").textContent = commandOf({ ...job, dictionary: summary.draft ?? job.dictionary }, file.name);
  }

  /**
   * What is known of the recording's file.
   * @param {Record<string, string>} facts
   */
  showRecording(facts) {
    const items = Object.entries(facts).flatMap(([name, value]) => [make("dt", NAMES[name]), make("dd", value)]);
    element("recording").replaceChildren(...items);
  }
}

/** @param {File} file */
function dateOf(file) {
  if (!file.lastModified) return "";
  const date = new Date(file.lastModified);
  return `${date.toLocaleDateString("sv")} ${date.toLocaleTimeString("sv").slice(0, 5)}`;
}
