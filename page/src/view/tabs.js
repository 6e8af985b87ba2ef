import { element } from "./dom.js";

/** Tabs, of which one pane is shown; arrows move among them. */
export class Tabs {
  constructor() {
    this.all = [.../** @type {NodeListOf<HTMLElement>} */ (element("tabs").querySelectorAll("[role=tab]"))];
    for (const tab of this.all) tab.addEventListener("click", () => this.show(tab));
    element("tabs").addEventListener("keydown", (event) => {
      const step = /** @type {Partial<Record<string, number>>} */ ({ ArrowRight: 1, ArrowLeft: -1 })[event.key];
      if (!step) return;
      event.preventDefault();
      const at = this.all.indexOf(/** @type {HTMLElement} */ (event.target));
      this.openAt((at + step + this.all.length) % this.all.length);
    });
    this.show(this.all[0]);
  }

  /** @param {HTMLElement} chosen */
  show(chosen) {
    for (const tab of this.all) {
      const isChosen = tab === chosen;
      tab.setAttribute("aria-selected", String(isChosen));
      tab.tabIndex = isChosen ? 0 : -1;
      element(/** @type {string} */ (tab.getAttribute("aria-controls"))).hidden = !isChosen;
    }
  }

  /** @param {string} name */
  open(name) {
    this.show(element(`tab-${name}`));
  }

  /**
   * Opens one by its place, and goes to it.
   * @param {number} at
   */
  openAt(at) {
    this.show(this.all[at]);
    this.all[at].focus();
  }
}
