/**
 * What elements are that are more than a plain one, by their ids. The decoder is not in a report, which has a listing.
 * @typedef {Record<"file"|"form"|"query-kind"|`channel-${number}`, HTMLSelectElement>
 *   & Record<"files"|"folder"|"rate"|"rest"|"falling"|`inverted-${number}`, HTMLInputElement>
 *   & Record<"query-text"|"query-station"|"query-type"|"query-second"|"query-idle", HTMLInputElement>
 *   & Record<"read"|"draft"|`tab-${string}`, HTMLButtonElement>
 *   & Record<"settings"|"query", HTMLFormElement>
 *   & Record<"progress", HTMLProgressElement>
 *   & Record<"dictionary", HTMLTextAreaElement>
 *   & Record<"help", HTMLDialogElement>
 *   & Record<"engine"|"engine-32"|"listing-data", HTMLElement|null>} Elements
 */

/**
 * Any other element, whose text is never null.
 * @typedef {HTMLElement & { textContent: string }} Plain
 */

/**
 * The element with an id, which is there.
 * @template {string} Id
 * @param {Id} id
 */
export function element(id) {
  return /** @type {Id extends keyof Elements ? Elements[Id] : Plain} */ (document.getElementById(id));
}

/**
 * A new element with a text; what comes from a file is only ever put into the page as text.
 * @template {keyof HTMLElementTagNameMap} Name
 * @param {Name} name
 */
export function make(name, text = "", className = "") {
  const made = document.createElement(name);
  made.textContent = text;
  if (className) made.className = className;
  return made;
}

/**
 * Puts items of text into a list, in place of those that it has.
 * @param {HTMLElement} list
 * @param {string[]} texts
 */
export function fillList(list, texts) {
  list.replaceChildren(...texts.map((text) => make("li", text)));
}

/**
 * Offers a file to be saved.
 * @param {string} name
 * @param {Blob} blob
 */
export function save(name, blob) {
  const link = make("a");
  link.href = URL.createObjectURL(blob);
  link.download = name;
  link.click();
  setTimeout(() => URL.revokeObjectURL(link.href), 60000);
}
