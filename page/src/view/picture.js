import { axisBottom } from "d3-axis";
import { scaleLinear } from "d3-scale";
import { lengthOf } from "../../../scripts/modules/statistics/units.js";
import { drawDigits, heightOfDigits } from "./digits.js";
import { SIGNS } from "./signs.js";
import { placeOf } from "./words.js";

/** @typedef {import("d3-scale").Scale} Scale */
/** @typedef {import("d3-selection").Selection<SVGGElement>} Group */
/** @typedef {import("d3-selection").Selection<SVGSVGElement>} Svg */
/** @typedef {import("../../../scripts/modules/findings/findings.js").Finding} Finding */
/** @typedef {import("../../../scripts/modules/findings/findings.js").Stretch} Stretch */
/** @typedef {import("../worker/lanes.js").Lane} Lane */
/** @typedef {import("../worker/lanes.js").Mark} Mark */
/** @typedef {import("../worker/lanes.js").Track} Track */

/**
 * A part of the recording, in places.
 * @typedef {{ first: number, past: number }} Part
 */

/**
 * A sign: of one mark, or of those of a bin, and where it is in the picture.
 * @typedef {{ count: number, x: number } & (Mark|{ row: number, text?: undefined })} Sign
 */

/**
 * What is drawn, and how.
 * @typedef {object} Told
 * @property {Lane[]} lanes
 * @property {import("./digits.js").Digits[]} digits
 * @property {Scale} scale
 * @property {import("./clock.js").Clock} clock
 * @property {number} width
 * @property {Part|null} chosen
 */

/** Below this width there is room for short names alone. */
export const NARROW = 560;

const LANE = { most: 36, least: 15, room: 0.35 }; // the height of a station's lane, and the share of the window for all
const TWO_ROWS = 30; // so high a lane has its name in two rows
const DAMAGE = { most: 20, least: 16 };
const AXIS = 24;
const BIN = 2;
const SIGN = 11;
const HATCH = 7;
const CHARACTER = 7; // the width of one, about

/** Draws the lanes of a timeline. */
export class Picture {
  // Until it is drawn, it has none of these.
  scale = /** @type {Scale} */ (/** @type {unknown} */ (undefined));
  root = /** @type {Group} */ (/** @type {unknown} */ (undefined));
  drawn = /** @type {{ lane: Lane, top: number, height: number }[]} */ (/** @type {unknown} */ (undefined));
  clock = /** @type {import("./clock.js").Clock} */ (/** @type {unknown} */ (undefined));
  width = NaN;

  /** @param {Svg} svg @param {(row: number) => void} pick what to do where a mark is chosen */
  constructor(svg, pick) {
    this.svg = svg;
    this.pick = pick;
    /** @type {Set<EventTarget|null>} */
    this.touched = new Set(); // what fingers touch
    const node = svg.node();
    node.addEventListener("touchstart", ({ target }) => this.touched.add(target), { passive: true });
    for (const name of ["touchend", "touchcancel"]) node.addEventListener(name, ({ target }) => this.touched.delete(target));
  }

  /** A new picture in place of the old one, which stays hidden while a finger is on it: it gets the events. */
  begin() {
    /** @param {Element} node */
    const isTouched = (node) => [...this.touched].some((target) => node.contains(/** @type {Node|null} */ (target)));
    for (const node of /** @type {SVGGElement[]} */ ([...this.svg.node().children])) {
      if (isTouched(node)) node.style.display = "none";
      else node.remove();
    }
    return this.svg.append("g");
  }

  /** @param {Told & { stretches: Finding[] }} told stretches are drawn through all lanes */
  draw({ lanes, digits, scale, clock, width, chosen, stretches }) {
    Object.assign(this, { scale, clock, width });
    const stations = lanes.filter(({ isStation }) => isStation).length;
    const room = Math.min(260, LANE.room * window.innerHeight);
    const own = Math.max(LANE.least, Math.min(LANE.most, Math.floor(room / Math.max(1, stations))));
    const ofDamage = own < DAMAGE.most ? DAMAGE.least : DAMAGE.most;
    this.root = this.begin();
    this.drawn = [];
    let top = 0;
    lanes.forEach((lane, at) => {
      const height = lane.isStation ? own : ofDamage;
      this.drawLane(lane, top, height, at % 2 === 0);
      this.drawn.push({ lane, top, height });
      top += height;
    });
    for (const line of digits) {
      drawDigits(this.root.append("g").attr("transform", `translate(0,${top})`), line, scale);
      top += heightOfDigits(line, scale);
    }
    this.drawStretches(stretches, top);
    if (chosen) this.drawChosen(chosen, top);
    this.svg.attr("viewBox", `0 0 ${width} ${top}`);
  }

  /**
   * The times below the lanes, which may be scrolled; what is chosen, and where the recording is doubtful.
   * @param {Svg} axis
   * @param {Told & { warnings: import("../../../scripts/modules/recording/doubts.js").Warning[] }} told
   */
  drawAxis(axis, { scale, clock, width, chosen, warnings }) {
    const [left, right] = scale.range();
    axis.attr("viewBox", `0 0 ${width} ${AXIS}`);
    axis.selectAll("*").remove();
    axis.append("g").call(axisOf(scale, clock, Math.max(3, Math.min(10, Math.floor((right - left) / 90)))));
    axis.append("text").attr("x", 4).attr("y", 17).attr("class", "about").text(clock.axisName);
    /** @param {number} place @param {string} className @param {string} title */
    const flag = (place, className, title) => {
      const x = scale(place);
      if (x < left || x > right) return;
      const path = axis.append("path").attr("class", className).attr("d", `M${x - 5} 8h10l-5 -8z`);
      if (title) path.append("title").text(title);
    };
    for (const warning of warnings) {
      const place = placeOf(warning, clock.rate);
      if (place !== null) flag(place, "sign warning", warning.text);
    }
    if (chosen) flag(chosen.first, "chosen-flag", "");
  }

  /**
   * The mark nearest to a point, and how far it is.
   * @param {number} x
   * @param {number} y
   */
  nearest(x, y) {
    const { scale } = this;
    const found = this.drawn.find(({ top, height }) => y >= top && y < top + height);
    if (!found) return null;
    const { lane, top, height } = found;
    const isAbove = y < top + height / 2;
    /** @param {Track} track */
    const isOfCommands = ({ id }) => id === "command" || id === "other";
    /** @param {Track} track */
    const isOfAnswers = ({ id, isSign }) => isSign || id !== "command";
    const isThere = lane.isStation ? (isAbove ? isOfCommands : isOfAnswers) : () => true;
    /** @param {Mark} mark */
    const awayOf = ({ row, first, past }) => ({ row, away: Math.max(0, scale(first) - x, x - scale(past)) });
    const marks = lane.tracks.filter(isThere).flatMap((track) => track.marks ?? []);
    const none = /** @type {{ row: number, away: number }|null} */ (null);
    return marks.map(awayOf).reduce((best, mark) => (best && best.away <= mark.away ? best : mark), none);
  }

  /** @param {Group} group @param {string} text @param {number} x @param {number} y */
  words(group, text, x, y, className = "") {
    return group.append("text").attr("x", x).attr("y", y).attr("class", className).text(text);
  }

  /**
   * @param {Group} group
   * @param {string} className
   * @param {number} x
   * @param {number} y
   * @param {number} width
   * @param {number} height
   */
  box(group, className, x, y, width, height) {
    const made = group.append("rect").attr("class", className).attr("x", x).attr("y", y);
    return made.attr("width", Math.max(0, width)).attr("height", height);
  }

  /** @param {Lane} lane @param {number} top @param {number} height @param {boolean} isEven */
  drawLane(lane, top, height, isEven) {
    const group = this.root.append("g").attr("transform", `translate(0,${top})`);
    if (isEven) this.box(group, "lane-ground", 0, 0, this.width, height);
    this.drawName(group, lane, height);
    for (const gap of lane.gaps) this.drawGap(group, gap, height);
    const half = (height - 4) / 2;
    for (const track of lane.tracks.filter(({ isSign }) => !isSign)) {
      const isFull = !lane.isStation || track.id === "other";
      const [y, tall] = isFull ? [3, height - 6] : track.id === "command" ? [2, half - 1] : [2 + half, half - 1];
      if (track.marks) this.drawMarks(group, track, y, tall);
      else this.drawBins(group, track, y, tall);
    }
    for (const gap of lane.gaps) this.nameGap(group, gap, height);
    for (const track of lane.tracks.filter(({ isSign }) => isSign)) this.drawSigns(group, track, 2 + half * 1.5);
  }

  /**
   * The name of a lane, and below or beside it how much is wrong, or else what is sent to the station.
   * @param {Group} group
   * @param {Lane} lane
   * @param {number} height
   */
  drawName(group, { name, about, isStation, tracks }, height) {
    const isNarrow = this.width < NARROW;
    const long = isStation && name !== "others" ? `Station ${name}` : name;
    const label = this.words(group, isNarrow ? name : long, 4, height >= TWO_ROWS ? 14 : height / 2 + 4, "lane-name");
    label.append("title").text(`${long}${about ? `: ${about}` : ""}`);
    const wrong = tracks.filter(({ isSign, id, total }) => isSign && id !== "pending" && total > 0);
    const counts = isStation ? wrong.map(({ id, total }) => `${total} ${id}`).join(", ") : String(tracks[0]?.total ?? "");
    const below = isStation ? counts || about : [about, counts].filter(Boolean).join(": ");
    const [x, y] = height >= TWO_ROWS ? [4, 28] : [isStation ? 84 : 62, height / 2 + 4];
    if (isNarrow && height < TWO_ROWS) return;
    const most = Math.floor((this.scale.range()[0] - x - 4) / (CHARACTER - 1.2));
    this.words(group, below.length > most ? `${below.slice(0, most - 1)}\u2026` : below, x, y, "about");
  }

  /**
   * Begin and end of a stretch in the picture.
   * @param {Part} stretch
   */
  ends({ first, past }) {
    const [left, right] = this.scale.range();
    return [Math.max(left, this.scale(first)), Math.min(right, this.scale(past))];
  }

  /**
   * A time without the commands that usually come: hatched.
   * @param {Group} group
   * @param {Stretch} gap
   * @param {number} height
   */
  drawGap(group, gap, height) {
    const [begin, end] = this.ends(gap);
    if (end - begin < 1) return;
    this.box(group, "gap-ground", begin, 1.5, end - begin, height - 3).append("title").text(gap.text);
    group.append("g").attr("class", "hatch").append("path").attr("d", hatching(begin, end, 1.5, height - 1.5));
  }

  /**
   * What a gap is, or how long, as far as there is room within it: beside it, the words would name what stands there.
   * @param {Group} group
   * @param {Stretch} gap
   * @param {number} height
   */
  nameGap(group, gap, height) {
    const [begin, end] = this.ends(gap);
    const text = [gap.text, gap.short].find((some) => CHARACTER * some.length < end - begin);
    if (text === undefined) return;
    this.words(group, text, (begin + end) / 2, height / 2 + 4, "gap-word").attr("text-anchor", "middle");
  }

  /**
   * Times without anything, through all lanes.
   * @param {Finding[]} stretches
   * @param {number} height
   */
  drawStretches(stretches, height) {
    const group = this.root.append("g");
    for (const { over, places } of stretches) {
      for (const { first, past } of places) {
        const length = lengthOf(past - first, this.clock.rate);
        const gap = { first, past, text: `${over} for ${length}`, short: length };
        this.drawGap(group, gap, height);
        this.nameGap(group, gap, height);
      }
    }
  }

  /** @param {Group} group @param {import("../worker/lanes.js").MarkedTrack} track @param {number} y @param {number} height */
  drawMarks(group, { id, marks }, y, height) {
    const [left, right] = this.scale.range();
    /** @param {Mark} mark */
    const begin = (mark) => Math.max(left, this.scale(mark.first));
    group
      .selectAll(`rect.${id}`)
      .data(marks)
      .enter()
      .append("rect")
      .attr("class", `mark ${id}`)
      .attr("x", begin)
      .attr("width", (mark) => Math.max(1.5, Math.min(right, this.scale(mark.past)) - begin(mark) - 0.5))
      .attr("y", y)
      .attr("height", height)
      .on("click", (...words) => this.pick(markOf(words).row))
      .append("title")
      .text((mark) => `${this.clock.moment(mark.first)}: ${mark.text}`);
  }

  /**
   * Bins as one picture: there are too many for an element each.
   * @param {Group} group
   * @param {import("../worker/lanes.js").BinnedTrack} track
   * @param {number} y
   * @param {number} height
   */
  drawBins(group, { id, counts, leaders }, y, height) {
    const most = counts.reduce((one, other) => Math.max(one, other), 1);
    const [left] = this.scale.range();
    let path = "";
    counts.forEach((count, bin) => {
      if (count === 0) return;
      const tall = 2 + (height - 2) * (Math.log1p(count) / Math.log1p(most));
      path += `M${left + bin * BIN} ${y + height}v${-tall.toFixed(1)}h${BIN}V${y + height}z`;
    });
    const bars = group.append("path").attr("class", `mark ${id}`).attr("d", path);
    bars.append("title").text(`${counts.reduce((sum, count) => sum + count, 0)} ${id}s in view`);
    bars.node().addEventListener("click", (event) => {
      const box = this.svg.node().getBoundingClientRect();
      const bin = Math.floor((((event.clientX - box.left) * this.width) / box.width - left) / BIN);
      if (counts[bin] > 0) this.pick(leaders[bin]);
    });
  }

  /**
   * Signs of what is wrong, where the answer should be.
   * @param {Group} group
   * @param {Track} track
   * @param {number} middle
   */
  drawSigns(group, track, middle) {
    const [left, right] = this.scale.range();
    /** @param {number} bin */
    const placeOf = (bin) => left + ((bin + 0.5) * (right - left)) / /** @type {Uint32Array} */ (track.counts).length;
    /** @type {Sign[]} */
    const binned = track.counts
      ? Array.from(track.counts, (count, bin) => ({ count, row: track.leaders[bin], x: placeOf(bin) }))
      : track.marks.map((mark) => ({ ...mark, count: 1, x: Math.max(left, this.scale(mark.past)) }));
    /** @param {Mark} mark */
    const when = ({ first }) => this.clock.moment(first);
    group
      .selectAll(`path.${track.id}`)
      .data(binned.filter(({ count, x }) => count > 0 && x >= left - 1 && x <= right + SIGN))
      .enter()
      .append("path")
      .attr("class", `mark ${track.id}`)
      .attr("d", SIGNS[/** @type {keyof typeof SIGNS} */ (track.id)])
      .attr("fill-rule", "evenodd")
      .attr("transform", ({ x }) => `translate(${x - SIGN / 2},${middle - SIGN / 2}) scale(${SIGN / 16})`)
      .on("click", (...words) => this.pick(markOf(words).row))
      .append("title")
      .text((mark) => (mark.text ? `${when(mark)}: ${mark.text}` : `${mark.count} ${track.id}`));
  }

  /**
   * What is chosen, through all lanes.
   * @param {Part} chosen
   * @param {number} height
   */
  drawChosen(chosen, height) {
    const [left, right] = this.scale.range();
    const [begin, end] = [this.scale(chosen.first), this.scale(chosen.past)];
    if (end < left || begin > right) return;
    const group = this.root.append("g");
    const [from, to] = [Math.max(left, begin), Math.min(right, Math.max(end, begin + 2))];
    this.box(group, "chosen-ground", from, 0, to - from, height);
    for (const x of [begin, end]) {
      if (x < left || x > right) continue;
      group.append("line").attr("class", "chosen-edge").attr("x1", x).attr("x2", x).attr("y1", 0).attr("y2", height);
    }
  }
}

/**
 * An axis with about so many ticks: of seconds, or of times of day.
 * @param {Scale} scale
 * @param {import("./clock.js").Clock} clock
 * @param {number} count
 */
function axisOf(scale, clock, count) {
  const [first, past] = scale.domain();
  if (clock.dayTime === null) {
    const times = scaleLinear().domain([first / clock.rate, past / clock.rate]).range(scale.range());
    return axisBottom(times).ticks(count);
  }
  const labels = clock.ticks(first, past, count);
  return axisBottom(scale).tickValues([...labels.keys()]).tickFormat((place) => labels.get(place) ?? "");
}

/**
 * What d3 hands to a listener: first the datum, or first the event.
 * @param {((Event & { row?: undefined })|{ row: number })[]} words
 */
function markOf(words) {
  return /** @type {{ row: number }} */ (words.find((word) => word && word.row !== undefined));
}

/**
 * Slanting lines that fill a box.
 * @param {number} left
 * @param {number} right
 * @param {number} top
 * @param {number} bottom
 */
function hatching(left, right, top, bottom) {
  const height = bottom - top;
  let path = "";
  for (let x = left - height; x < right; x += HATCH) {
    const [from, to] = [Math.max(left, x), Math.min(right, x + height)];
    path += `M${from.toFixed(1)} ${(bottom - (from - x)).toFixed(1)}L${to.toFixed(1)} ${(bottom - (to - x)).toFixed(1)}`;
  }
  return path;
}
