import { octetsOf } from "../../../scripts/modules/octets.js";
import { usualOf } from "../../../scripts/modules/recording/usual.js";
import { plainText } from "../../../scripts/modules/text.js";
import { element, make } from "./dom.js";
import { chosenFiles, droppedFiles } from "./given.js";

/** @typedef {import("./given.js").Given} Given */

export const NOT_ALL_CHOSEN = "Say which channels are TXC and TXD.";

/**
 * The text of a file, plain.
 * @param {File} file
 */
export const textOf = async (file) => plainText(await octetsOf(file), file.name);

/** @returns {NodeListOf<HTMLInputElement & HTMLSelectElement>} the fields of how a file is read */
const fields = () => element("settings").querySelectorAll("input, select");

/** What is in the fields of how a file is read. */
export function fieldsOf() {
  return [...fields()].map(({ value, checked, selectedIndex }) => ({ value, checked, selectedIndex }));
}

/**
 * Fills these fields, which offer what they did.
 * @param {ReturnType<typeof fieldsOf>} values
 */
export function fill(values) {
  fields().forEach((field, at) => {
    const { value, checked, selectedIndex } = values[at];
    if (selectedIndex === undefined) Object.assign(field, { value, checked });
    else field.selectedIndex = selectedIndex;
  });
}

/** The choice of files, and of how each is read. */
export class Files {
  /** @param {(files: Given[]|Promise<Given[]>) => void} take what to do with files that were dropped or chosen */
  constructor(take) {
    for (const id of /** @type {const} */ (["files", "folder"])) {
      element(id).addEventListener("change", ({ target }) => {
        const field = /** @type {HTMLInputElement & { files: FileList }} */ (target);
        const files = chosenFiles(field.files);
        field.value = ""; // so that the same file can be chosen again, when it has changed
        if (files.length > 0) take(files);
      });
    }
    for (const name of ["dragenter", "dragover"]) document.addEventListener(name, (event) => dragged(event, true));
    for (const name of ["dragleave", "drop"]) document.addEventListener(name, (event) => dragged(event, false));
    document.addEventListener("drop", (event) => take(droppedFiles(/** @type {DataTransfer} */ (event.dataTransfer))));
  }

  /**
   * Asks for files, or for a folder.
   * @param {"files"|"folder"} id
   */
  choose(id = "files") {
    element(id).click();
  }

  /**
   * Offers files to choose from.
   * @param {File[]} files
   */
  offer(files) {
    const choice = element("file");
    choice.replaceChildren(...files.map((file) => make("option", file.name)));
    choice.disabled = files.length < 2;
  }

  /**
   * Offers the channels of a recording, each where its name says that it belongs, or else in their order.
   * @param {string[]} channels
   * @returns {import("../../../scripts/modules/recording/usual.js").Usual["how"]}
   */
  offerChannels(channels) {
    element("channels").hidden = channels.length === 0;
    const { how, named, order } = usualOf(channels);
    const isOrdered = how === "ordered" || how === "numbered";
    const many = isOrdered || channels.length === 4 ? 4 : 2;
    named.forEach((_, at) => {
      const select = element(`channel-${at}`);
      select.replaceChildren(make("option", "none"), ...channels.map((name) => make("option", name)));
      const found = named[at].length > 0 ? channels.indexOf(named[at][0]) : -1;
      const next = at < many && at < channels.length ? (isOrdered ? channels.indexOf(order[at]) : at) : -1;
      select.selectedIndex = 1 + (found < 0 && named.flat().length === 0 ? next : found);
    });
    return how;
  }

  /** Which lines' data is inverted: 1, 2, or 3 for both. */
  inverted() {
    return [1, 2].reduce((sum, line) => sum + (element(`inverted-${line}`).checked ? line : 0), 0);
  }

  /** The channels that were chosen: clock and data, the data of a second line, or clock and data of both. */
  channels() {
    const [clock, data, second, answers] = [0, 1, 2, 3].map((at) => {
      const select = element(`channel-${at}`);
      return select.selectedIndex > 0 ? select.value : null;
    });
    if (clock === null || data === null) throw new Error(NOT_ALL_CHOSEN);
    if (answers === null) return [clock, data];
    return second === null ? [clock, data, answers] : [clock, data, second, answers];
  }
}

/** @param {Event} event @param {boolean} isOver */
function dragged(event, isOver) {
  event.preventDefault();
  document.body.classList.toggle("dragged", isOver);
}
