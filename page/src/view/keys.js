import { element, make } from "./dom.js";

/**
 * A key, what it is called, and what it does.
 * @typedef {{ keys: string[], shown: string, words: string }} Key
 */

/**
 * Whether a key was typed into a field, or is one of the browser's own.
 * @param {KeyboardEvent} event
 */
export function isOther(event) {
  const target = /** @type {Partial<Element>} */ (event.target);
  const isTyped = target.closest?.("input:not([type=checkbox]), textarea, select, dialog");
  return isTyped || event.ctrlKey || event.metaKey || event.altKey;
}

/**
 * Does what a table says of a key that an element takes for itself.
 * @template T
 * @param {KeyboardEvent} event
 * @param {{ keys: string[], act: (target: T) => void }[]} table
 * @param {T} target
 */
export function act(event, table, target) {
  const found = isOther(event) ? undefined : table.find(({ keys }) => keys.includes(event.key));
  if (!found) return;
  event.preventDefault();
  event.stopPropagation();
  found.act(target);
}

/** The help that lists the keys, from the tables by which the page takes them. */
export class Help {
  /** @param {[string, { shown: string, words: string }[]][]} parts of the page, with their keys */
  constructor(parts) {
    this.dialog = element("help");
    element("help-keys").replaceChildren(...parts.map(([name, keys]) => partOf(name, keys)));
    element("show-help").addEventListener("click", () => this.open());
  }

  open() {
    if (!this.dialog.open) this.dialog.showModal();
  }
}

/** @param {string} name @param {{ shown: string, words: string }[]} keys */
function partOf(name, keys) {
  const part = make("section");
  const list = make("dl");
  for (const { shown, words } of keys) {
    const head = make("dt");
    head.append(...shown.split(" ").map((key) => make("kbd", key)));
    list.append(head, make("dd", words));
  }
  part.append(make("h3", name), list);
  return part;
}
