// Listings of talks on a bus of two lines, written command by command, as the page reads them.

import { ListingReader } from "../../listing/read.js";
import { Bus } from "../../statistics/bus.js";

export const RATE = 153600;

/** The bits of a frame without data, and of a second. */
const FRAME = 41;

const hex = (number) => number.toString(16).padStart(2, "0");

/** Writes what a controller and its stations say. Times are in milliseconds. */
export class Talk {
  constructor() {
    this.lines = []; // each with the place at which it is decided
  }

  place(milliseconds) {
    return Math.round((milliseconds * RATE) / 1000);
  }

  write(line, first, past, text, decided = past) {
    this.lines.push({ decided, text: `${line} ${first} ${past} ${text}` });
    return this;
  }

  frame(line, at, station, type, name = `t${type}`) {
    const first = this.place(at);
    const told = name === "" ? "" : ` station ${station} type ${type} ${name}`;
    return this.write(line, first, first + FRAME, `frame ${hex(station)}83${hex(type)}fde5${told}`);
  }

  /** A command whose answer comes so many milliseconds later, and its verdict. */
  answered(at, station, type, reply = 1, verdict = "answered") {
    const answer = at + reply + (1000 * FRAME) / RATE;
    this.frame(1, at, station, type).frame(2, answer, station, type + 128);
    return this.judged(at, station, type, verdict, this.place(answer) + FRAME + 0.5);
  }

  /** A command that has no answer. */
  missing(at, station, type) {
    return this.frame(1, at, station, type).judged(at, station, type, "missing", this.place(at + 5));
  }

  judged(at, station, type, verdict, decided) {
    const first = this.place(at);
    return this.write(1, first, first + FRAME, `${verdict} station ${station} type ${type}`, decided);
  }

  damaged(line, at, cause = "fcs") {
    const first = this.place(at);
    return this.write(line, first, first + FRAME, `damaged ${cause}`);
  }

  /** So many rounds of 100 ms, in each of which this is said. */
  rounds(count, say) {
    for (let round = 0; round < count; round++) say(100 * round, round);
    return this;
  }

  get text() {
    return [...this.lines].sort((one, other) => one.decided - other.decided).map(({ text }) => `${text}\n`).join("");
  }

  get listing() {
    const reader = new ListingReader();
    reader.take(new TextEncoder().encode(this.text));
    return reader.end();
  }

  /** The listing, and what is counted of it. */
  get counted() {
    const { listing } = this;
    const bus = new Bus(RATE);
    bus.takeAll(listing.rows());
    return { listing, bus };
  }
}
