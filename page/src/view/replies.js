import { axisBottom, axisLeft } from "d3-axis";
import { scaleLinear, scaleSymlog } from "d3-scale";
import { select } from "d3-selection";
import { element, make } from "./dom.js";
import { duration, grouped } from "./units.js";

/** @typedef {import("d3-scale").Scale} Scale */

/**
 * How long answers took in bits, and how many did so.
 * @typedef {[bits: number, count: number][]} Times
 */

/**
 * The times to answers of a kind of commands.
 * @typedef {{ name: string, inTime: Times, late: Times }} KindTimes
 */

/**
 * What a bar has, and which it is.
 * @typedef {{ bar: number, answered: number, late: number }} Bar
 */

const WIDTH = { least: 280, most: 480 };
const HEIGHT = 128;
const EDGE = { left: 34, right: 10, top: 16, bottom: 32 };
const BARS = 60;
const TICK = 48; // the width that a number below takes
const LEAST_BAR = 3; // so that one late answer among thousands is seen

/** The histogram of reply times, of all commands or of one kind. */
export class Replies {
  width = NaN; // until it is drawn
  x = /** @type {Scale} */ (/** @type {unknown} */ (undefined)); // until it is drawn
  isJudged = false; // whether a reply can be late
  rate = NaN;

  constructor() {
    this.box = element("replies");
    this.choice = make("select");
    this.choice.setAttribute("aria-label", "Reply times of which commands");
    this.words = make("p", "", "small");
    /** @type {KindTimes[]} */
    this.kinds = [];
    this.svg = select(this.box).append("svg").attr("role", "img");
    this.box.prepend(this.choice);
    this.box.append(this.words);
    this.choice.addEventListener("change", () => this.draw());
    new ResizeObserver(() => this.width !== this.room && this.draw()).observe(this.box);
  }

  /** How wide the picture can be. */
  get room() {
    return Math.max(WIDTH.least, Math.min(WIDTH.most, this.box.clientWidth));
  }

  /** @param {KindTimes[]} kinds @param {number} rate @param {boolean} isJudged */
  reset(kinds, rate, isJudged) {
    this.isJudged = isJudged;
    const all = { name: "all commands", inTime: kinds.flatMap((kind) => kind.inTime), late: kinds.flatMap((kind) => kind.late) };
    this.kinds = kinds.length === 1 ? kinds : [all, ...kinds];
    this.rate = rate;
    this.choice.replaceChildren(...this.kinds.map(({ name }) => make("option", name)));
    this.draw();
  }

  draw() {
    const { inTime, late } = this.kinds[Math.max(0, this.choice.selectedIndex)] ?? { inTime: [], late: [] };
    const times = [...inTime, ...late].map(([bits]) => bits);
    this.width = this.room;
    this.svg.attr("viewBox", `0 0 ${this.width} ${HEIGHT}`).selectAll("*").remove();
    this.svg.style("display", times.length ? null : "none");
    if (!times.length) {
      this.words.textContent = "No answer is known: there is none, or no dictionary that says which commands are answered.";
      return;
    }
    const most = times.reduce((one, other) => Math.max(one, other), 1);
    const width = Math.max(1, Math.ceil((most + 1) / BARS)); // of a bar in bits
    this.drawBars(barsOf(inTime, width), barsOf(late, width), width, most);
    this.nameLate(late, width);
    this.describe(inTime, late, width);
  }

  /**
   * A word above the late ones: colour is not alone.
   * @param {Times} late
   * @param {number} width
   */
  nameLate(late, width) {
    if (late.length === 0) return;
    const least = late.reduce((one, [bits]) => Math.min(one, bits), Infinity);
    const count = late.reduce((sum, [, some]) => sum + some, 0);
    const x = this.x((1000 * Math.floor(least / width) * width) / this.rate);
    const isRight = x > this.width - 80;
    this.svg
      .append("text")
      .attr("class", "late-word")
      .attr("x", isRight ? this.width - EDGE.right : x)
      .attr("y", EDGE.top - 4)
      .attr("text-anchor", isRight ? "end" : "start")
      .text(`${grouped(count)} late`);
  }

  /**
   * @param {Map<number, number>} inTime
   * @param {Map<number, number>} late
   * @param {number} width
   * @param {number} most
   */
  drawBars(inTime, late, width, most) {
    const bars = [...new Set([...inTime.keys(), ...late.keys()])].map((bar) => ({
      bar,
      answered: inTime.get(bar) ?? 0,
      late: late.get(bar) ?? 0,
    }));
    const highest = bars.reduce((high, bar) => Math.max(high, bar.answered + bar.late), 1);
    const toMilliseconds = 1000 / this.rate;
    const x = scaleLinear()
      .domain([0, (most + width) * toMilliseconds])
      .range([EDGE.left, this.width - EDGE.right]);
    this.x = x;
    const y = scaleSymlog()
      .domain([0, highest])
      .range([HEIGHT - EDGE.bottom, EDGE.top]);
    for (const bar of bars) {
      this.drawBar(bar, bar.answered, 0, "answered", x, y, width * toMilliseconds);
      this.drawBar(bar, bar.late, bar.answered, "late", x, y, width * toMilliseconds);
    }
    this.drawAxes(x, y);
  }

  /**
   * @param {Bar} bar
   * @param {number} count
   * @param {number} below
   * @param {string} className
   * @param {Scale} x
   * @param {Scale} y
   * @param {number} width
   */
  drawBar({ bar }, count, below, className, x, y, width) {
    if (count === 0) return;
    this.svg
      .append("rect")
      .attr("class", `mark ${className}`)
      .attr("x", x(bar * width))
      .attr("width", Math.max(1, x(width) - x(0) - 1))
      .attr("y", Math.min(y(below + count), y(below) - LEAST_BAR))
      .attr("height", Math.max(LEAST_BAR, y(below) - y(below + count)))
      .append("title")
      .text(`${className}: ${count}`);
  }

  /** @param {Scale} x @param {Scale} y */
  drawAxes(x, y) {
    this.svg
      .append("g")
      .attr("transform", `translate(0,${HEIGHT - EDGE.bottom})`)
      .call(axisBottom(x).ticks(Math.floor(this.width / TICK)));
    const tens = [1, 10, 100, 1000, 10000, 100000, 1000000].filter((count) => count <= y.domain()[1]);
    this.svg
      .append("g")
      .attr("transform", `translate(${EDGE.left},0)`)
      .call(axisLeft(y).tickValues(tens).tickFormat(short));
    this.svg
      .append("text")
      .attr("x", this.width / 2)
      .attr("y", HEIGHT - 4)
      .attr("text-anchor", "middle")
      .attr("class", "about")
      .text("milliseconds from the end of a command to its answer");
  }

  /** @param {Times} inTime @param {Times} late @param {number} width */
  describe(inTime, late, width) {
    const [answered, tardy] = [inTime, late].map((times) => times.reduce((sum, [, count]) => sum + count, 0));
    const bar = `a bar is ${duration(width, this.rate)} wide`;
    const text = this.isJudged
      ? `${grouped(answered)} in time, ${grouped(tardy)} late; ${bar}`
      : `${grouped(answered)}, of which none is judged late; ${bar}`;
    this.words.textContent = text;
    this.svg.attr("aria-label", `Histogram of reply times: ${text}`);
  }
}

/**
 * How many times lie in each bar.
 * @param {Times} times
 * @param {number} width
 */
function barsOf(times, width) {
  /** @type {Map<number, number>} */
  const bars = new Map();
  for (const [bits, count] of times) {
    const bar = Math.floor(bits / width);
    bars.set(bar, (bars.get(bar) ?? 0) + count);
  }
  return bars;
}

/**
 * A count in few characters.
 * @param {number} count
 */
function short(count) {
  if (count < 1000) return String(count);
  return count < 1000000 ? `${count / 1000}k` : `${count / 1000000}M`;
}
