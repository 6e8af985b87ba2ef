import { Clock } from "./clock.js";
import { element, make } from "./dom.js";
import { act } from "./keys.js";
import { latest } from "./latest.js";

/** @typedef {import("../worker/lent.js").Desks} Desk */
/** @typedef {import("../worker/desk.js").Line} Line */

/** The height of a line, which the style sheet has, too, and the most that browsers take for the height of a list. */
const LINE_HEIGHT = 20;
const MOST_HEIGHT = 8000000;

/** @type {(import("./keys.js").Key & { act(lines: Lines): void })[]} */
const ACTS = [
  { keys: ["ArrowDown"], shown: "\u2193", words: "choose the next line", act: (lines) => lines.move(1) },
  { keys: ["ArrowUp"], shown: "\u2191", words: "choose the line before", act: (lines) => lines.move(-1) },
  { keys: ["PageDown"], shown: "PgDn", words: "a page on", act: (lines) => lines.move(lines.many) },
  { keys: ["PageUp"], shown: "PgUp", words: "a page back", act: (lines) => lines.move(-lines.many) },
  { keys: ["Home"], shown: "Home", words: "the first lines", act: (lines) => lines.show(0) },
  { keys: ["End"], shown: "End", words: "the last lines", act: (lines) => lines.show(lines.count) },
  { keys: ["Enter"], shown: "Enter", words: "show what is chosen large", act: (lines) => lines.openChosen() },
];

/** The keys of the listing, for the help. */
export const LINES_KEYS = ACTS;

/** The lines of a listing, of which only those in view are in the page. */
export class Lines {
  /** @type {number[]} those that are drawn */
  rows = [];
  drawnAt = 0; // the place of the first of them
  expected = NaN; // how far `show` scrolled

  /**
   * @param {Desk} desk
   * @param {(row: number) => void} pick what to do where a line is chosen
   * @param {(row: number) => void} open what to do where the line that is chosen is chosen again
   */
  constructor(desk, pick, open) {
    this.desk = desk;
    this.pick = pick;
    this.open = open;
    this.clock = new Clock(1);
    this.at = -1; // the place of the chosen line among those shown
    this.count = 0;
    this.top = 0; // the first line in view
    this.chosen = -1; // the row that is marked
    this.box = element("lines");
    this.box.className = "lines";
    this.box.tabIndex = 0;
    this.box.setAttribute("role", "listbox");
    this.box.setAttribute("aria-label", "Lines of the listing");
    this.view = make("div", "", "view"); // stays in view, whatever is scrolled
    this.view.setAttribute("role", "presentation");
    this.spacer = make("div");
    this.box.append(this.view, this.spacer);
    this.ask = latest(
      (/** @type {number} */ from, /** @type {number} */ many) => desk.lines(from, many),
      (lines) => this.draw(lines),
    );
    this.box.addEventListener("scroll", () => this.scrolled());
    this.box.addEventListener("wheel", (event) => this.turned(event), { passive: false });
    this.box.addEventListener("keydown", (event) => act(event, ACTS, this));
    this.view.addEventListener("click", (event) => this.clicked(event));
    new ResizeObserver(() => this.count > 0 && this.fit()).observe(this.box);
  }

  /**
   * Tells times by a clock.
   * @param {Clock} clock
   */
  setClock(clock) {
    this.clock = clock;
    this.box.classList.toggle("of-day", clock.dayTime !== null);
  }

  /** Fits the list to its box, which another size was given. */
  fit() {
    this.spacer.style.height = `${this.height}px`;
    this.show(this.top);
  }

  /** How many lines fit into view. */
  get many() {
    return Math.max(1, Math.floor(this.box.clientHeight / LINE_HEIGHT));
  }

  get height() {
    return Math.min(MOST_HEIGHT, Math.max(this.count * LINE_HEIGHT, this.box.clientHeight));
  }

  /**
   * Shows a list of so many lines, from one on.
   * @param {number} count
   */
  reset(count, top = 0) {
    this.count = count;
    this.spacer.style.height = `${this.height}px`;
    this.show(top);
  }

  /**
   * Shows the lines from one on.
   * @param {number} top
   */
  show(top) {
    this.top = Math.max(0, Math.min(Math.round(top), this.count - this.many));
    const wanted = (this.top / Math.max(1, this.count - this.many)) * (this.height - this.box.clientHeight);
    this.expected = Math.round(wanted);
    this.box.scrollTop = this.expected;
    this.ask(this.top, this.many + 1);
  }

  /**
   * Shows a line in the middle, and marks it.
   * @param {number} position
   * @param {number} row
   */
  reveal(position, row) {
    this.chosen = row;
    this.at = position;
    const isInView = position > this.top && position < this.top + this.many - 1;
    this.show(isInView ? this.top : position - this.many / 2);
  }

  scrolled() {
    if (Math.abs(this.box.scrollTop - this.expected) <= 1) return; // what `show` did itself
    const share = this.box.scrollTop / Math.max(1, this.height - this.box.clientHeight);
    this.expected = this.box.scrollTop;
    this.top = Math.round(share * Math.max(0, this.count - this.many));
    this.ask(this.top, this.many + 1);
  }

  /** @param {WheelEvent} event */
  turned(event) {
    if (event.ctrlKey || Math.abs(event.deltaY) < Math.abs(event.deltaX)) return;
    const step = event.deltaMode === 0 ? event.deltaY / LINE_HEIGHT : event.deltaY;
    const isAtEnd = step < 0 ? this.top === 0 : this.top >= this.count - this.many;
    if (isAtEnd) return; // so that the page goes on
    event.preventDefault();
    this.show(this.top + (Math.abs(step) < 1 ? Math.sign(step) : step));
  }

  /**
   * Chooses the line so many further on.
   * @param {number} step
   */
  async move(step) {
    const next = Math.max(0, Math.min(this.count - 1, (this.at < 0 ? this.top - Math.sign(step) : this.at) + step));
    const [line] = await this.desk.lines(next, 1);
    if (!line) return;
    this.reveal(next, line.row);
    this.pick(line.row);
  }

  /**
   * Puts lines into the elements that are there, which is quicker than to make them.
   * @param {Line[]} lines
   */
  draw(lines) {
    while (this.view.childElementCount < lines.length) this.view.append(emptyLine());
    while (this.view.childElementCount > lines.length) /** @type {ChildNode} */ (this.view.lastChild).remove();
    lines.forEach((line, at) => this.drawLine(this.view.children[at], line, this.top + at));
    this.rows = lines.map(({ row }) => row);
    this.drawnAt = this.top;
    this.box.setAttribute("aria-activedescendant", this.chosen < 0 ? "" : `line-${this.chosen}`);
  }

  /** @param {Element} node @param {Line} line @param {number} position */
  drawLine(node, line, position) {
    const isChosen = line.row === this.chosen;
    node.className = `line ${line.kind}${isChosen ? " chosen" : ""}`;
    node.id = `line-${line.row}`;
    node.setAttribute("aria-selected", String(isChosen));
    node.setAttribute("aria-setsize", String(this.count));
    node.setAttribute("aria-posinset", String(position + 1));
    cellsOf(line, this.clock).forEach((text, at) => {
      const cell = /** @type {Text} */ (node.children[at].firstChild);
      if (cell.data !== text) cell.data = text;
    });
    /** @type {Element} */ (node.lastChild).className = line.derived ? "about derived" : "about";
  }

  /** @param {MouseEvent} event */
  clicked(event) {
    const nodes = /** @type {(Element|null)[]} */ ([...this.view.children]);
    const at = nodes.indexOf(/** @type {Element} */ (event.target).closest(".line"));
    if (at < 0) return;
    const row = this.rows[at];
    this.at = this.drawnAt + at;
    if (row === this.chosen) {
      this.open(row);
      return;
    }
    this.chosen = row;
    this.ask(this.top, this.many + 1);
    this.pick(row);
  }

  openChosen() {
    if (this.chosen >= 0) this.open(this.chosen);
  }
}

const CELLS = ["second", "on", "places", "kind", "octets", "about"];

/** A line without its text: the style sheet puts the octets last. */
function emptyLine() {
  const line = make("div");
  line.setAttribute("role", "option");
  for (const name of CELLS) {
    const cell = make("span", "", name);
    cell.append(document.createTextNode(""));
    line.append(cell);
  }
  return line;
}

/**
 * The texts of the cells: the time, and then a line of `port1 list` as it is, with the time of a reply.
 * @param {Line} line
 * @param {Clock} clock
 */
function cellsOf({ text, first, reply, derived }, clock) {
  const found = /^(?:([12]) )?(\d+ \d+) (\w+)(?: ([0-9a-f]{4,}))?(.*)$/.exec(text);
  const whole = /** @type {[null, string, string, string, string, string]} */ ([null, "", "", "", text, ""]);
  const [, on = "", places, kind, octets = "", about] = found ?? whole;
  const after = reply === null ? about : `${about}, ${((1000 * reply) / clock.rate).toFixed(2)} ms`;
  return [`${clock.time(first)} `, on && `${on} `, `${places} `, kind, octets && ` ${octets}`, derived ? ` ${derived}` : after];
}
