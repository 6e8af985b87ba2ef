import { ANSWER } from "../port1.js";
import { FIRST_CAPACITY, OctetHeap, widened } from "./columns.js";
import { ANSWERED, CAUSES, FRAME, KINDS, LATE, typeOf } from "./kinds.js";

/**
 * What stands after the octets of a frame, where it is no name of the dictionary: nothing, or how the frame stands to
 * the dictionary, by the numbers of the C library.
 */
export const NO_HEAD = 0;
export const OTHER_CONTROL = 1;
export const UNTYPED = 2;
export const UNKNOWN = 3;
export const WRONG_LENGTH = 4;
const HEADS = ["", "", "", "unknown", "length"];

const DIGITS = Array.from({ length: 256 }, (_, octet) => octet.toString(16).padStart(2, "0"));

/**
 * The lines of the bus by their numbers.
 * @type {(1|2|null)[]}
 */
const LINES = [null, 1, 2];

/**
 * Octets in hexadecimal.
 * @param {Uint8Array} octets
 */
export function hexOf(octets) {
  let digits = "";
  for (let at = 0; at < octets.length; at++) digits += DIGITS[octets[at]];
  return digits;
}

/**
 * The lines of `port1 list`, kept as numbers.
 *
 * @typedef {object} Row a line
 * @property {1|2|null} line of the bus, in a listing of two lines
 * @property {number} first the place of its first bit
 * @property {number} past the place just after its last bit
 * @property {import("./kinds.js").LineKind} kind
 * @property {Uint8Array|null} octets of a frame, the two of its check at the end
 * @property {number|null} station
 * @property {number|null} type
 * @property {string} name what the dictionary calls a frame; `unknown` or `length` where it does not fit; else empty
 * @property {string} cause of damage, else empty
 * @property {number|null} replyBits from the end of a command to the first bit of its answer
 */
export class Listing {
  length = 0;
  firsts = new Float64Array(FIRST_CAPACITY);
  pasts = new Float64Array(FIRST_CAPACITY);
  begins = new Uint32Array(FIRST_CAPACITY); // of a frame, where its octets begin
  counts = new Uint16Array(FIRST_CAPACITY); // of a frame, how many octets it has
  kinds = new Uint8Array(FIRST_CAPACITY);
  causes = new Uint8Array(FIRST_CAPACITY);
  lines = new Uint8Array(FIRST_CAPACITY); // of the bus; 0 in a listing of one line
  stations = new Uint8Array(FIRST_CAPACITY);
  types = new Int16Array(FIRST_CAPACITY); // or -1
  heads = new Uint16Array(FIRST_CAPACITY); // of a frame, what stands after its octets
  heap = new OctetHeap();
  names = [...HEADS];
  numbers = new Map([[HEADS[UNKNOWN], UNKNOWN], [HEADS[WRONG_LENGTH], WRONG_LENGTH]]);

  columns() {
    const { firsts, pasts, begins, counts, kinds, causes, lines, stations, types, heads } = this;
    return [firsts, pasts, begins, counts, kinds, causes, lines, stations, types, heads];
  }

  /**
   * Makes room for so many lines.
   * @param {number} count
   */
  reserve(count) {
    if (count <= this.firsts.length) return;
    const capacity = Math.max(count, 2 * this.firsts.length);
    [this.firsts, this.pasts] = [widened(this.firsts, capacity), widened(this.pasts, capacity)];
    [this.begins, this.counts] = [widened(this.begins, capacity), widened(this.counts, capacity)];
    [this.kinds, this.causes] = [widened(this.kinds, capacity), widened(this.causes, capacity)];
    [this.lines, this.stations] = [widened(this.lines, capacity), widened(this.stations, capacity)];
    [this.types, this.heads] = [widened(this.types, capacity), widened(this.heads, capacity)];
  }

  /**
   * Adds a line of zeros.
   * @returns {number} its number
   */
  add() {
    this.reserve(this.length + 1);
    return this.length++;
  }

  /**
   * Drops the lines from one on.
   * @param {number} from
   */
  drop(from) {
    for (const column of this.columns()) column.fill(0, from, this.length);
    this.length = from;
  }

  /**
   * The number that stands for a name, which may come for the first time.
   * @param {string} name
   */
  head(name) {
    return this.numbers.get(name) ?? this.addName(name);
  }

  /**
   * A new number for a name, which need not differ from all others: a dictionary may call a type `unknown`.
   * @param {string} name
   */
  addName(name) {
    const number = this.names.length;
    this.names.push(name);
    this.numbers.set(name, this.numbers.get(name) ?? number);
    return number;
  }

  /**
   * Adds a line about a piece that is no frame, without a station.
   * @param {number} line
   * @param {number} first
   * @param {number} past
   * @param {number} kind
   * @param {number} cause
   */
  addPiece(line, first, past, kind, cause) {
    const at = this.add();
    this.place(at, line, first, past, kind);
    this.causes[at] = cause;
    this.types[at] = -1;
  }

  /**
   * Adds the line of a frame, which has some of these octets.
   * @param {number} line
   * @param {number} first
   * @param {number} past
   * @param {Uint8Array} octets
   * @param {number} from
   * @param {number} count
   * @param {number} head
   */
  addFrame(line, first, past, octets, from, count, head) {
    const at = this.add();
    this.place(at, line, first, past, FRAME);
    this.begins[at] = this.heap.add(octets, from, count);
    this.counts[at] = count;
    this.stations[at] = octets[from];
    this.types[at] = typeOf(octets, from, count);
    this.heads[at] = head;
  }

  /**
   * Adds a line with a station and a type: a verdict, a stray, or a command that waits.
   * @param {number} line
   * @param {number} first
   * @param {number} past
   * @param {number} kind
   * @param {number} station
   * @param {number} type
   */
  addStation(line, first, past, kind, station, type) {
    const at = this.add();
    this.place(at, line, first, past, kind);
    this.stations[at] = station;
    this.types[at] = type;
  }

  /** @param {number} at @param {number} line @param {number} first @param {number} past @param {number} kind */
  place(at, line, first, past, kind) {
    this.lines[at] = line;
    this.firsts[at] = first;
    this.pasts[at] = past;
    this.kinds[at] = kind;
  }

  /** @param {number} at */
  octetsOf(at) {
    return this.heap.octets.subarray(this.begins[at], this.begins[at] + this.counts[at]);
  }

  /**
   * A line as `port1 list` writes it, without its end.
   * @param {number} at
   */
  text(at) {
    const line = this.lines[at];
    const places = `${this.firsts[at]} ${this.pasts[at]} ${KINDS[this.kinds[at]]}`;
    return (line ? `${line} ${places}` : places) + this.rest(at);
  }

  /**
   * What stands after the kind.
   * @param {number} at
   */
  rest(at) {
    const kind = this.kinds[at];
    if (kind === FRAME) return ` ${this.hex(at)}${this.headText(at)}`;
    if (this.causes[at]) return ` ${CAUSES[this.causes[at]]}`;
    return this.types[at] < 0 ? "" : ` station ${this.stations[at]} type ${this.types[at]}`;
  }

  /** @param {number} at */
  hex(at) {
    return hexOf(this.octetsOf(at));
  }

  /** @param {number} at */
  headText(at) {
    const head = this.heads[at];
    if (head === NO_HEAD) return "";
    if (head === UNTYPED) return " untyped";
    if (head === OTHER_CONTROL) return ` control ${this.octetsOf(at)[1]}`;
    return ` station ${this.stations[at]} type ${this.types[at]} ${this.names[head]}`;
  }

  /**
   * The time from a command to its answer in bits, for a verdict on it: the answer is the line before.
   * @param {number} at
   */
  replyBits(at) {
    const kind = this.kinds[at];
    if ((kind !== ANSWERED && kind !== LATE) || at === 0 || this.kinds[at - 1] !== FRAME) return null;
    const answers = this.stations[at - 1] === this.stations[at] && this.types[at - 1] === this.types[at] + ANSWER;
    return answers ? this.firsts[at - 1] - this.pasts[at] : null;
  }

  /** @param {number} at @returns {Row} */
  row(at) {
    const isFrame = this.kinds[at] === FRAME;
    const type = this.types[at];
    return {
      line: LINES[this.lines[at]],
      first: this.firsts[at],
      past: this.pasts[at],
      kind: KINDS[this.kinds[at]],
      octets: isFrame ? this.octetsOf(at) : null,
      station: isFrame || type >= 0 ? this.stations[at] : null,
      type: type < 0 ? null : type,
      name: isFrame ? this.names[this.heads[at]] : "",
      cause: CAUSES[this.causes[at]],
      replyBits: this.replyBits(at),
    };
  }

  /** Forgets all lines but the last one, which may be the answer of which the next one speaks. */
  keepLast() {
    const last = this.length - 1;
    if (last < 0) return;
    this.heap.keep(this.begins[last], this.counts[last]);
    this.begins[last] = 0;
    for (const column of this.columns()) column[0] = column[last];
    this.drop(1);
  }

  /** The lines from one on, as rows. */
  *rows(from = 0) {
    for (let at = from; at < this.length; at++) yield this.row(at);
  }

  /**
   * The text of some lines, each with its end.
   * @param {number} from
   * @param {number} past
   */
  textOf(from, past) {
    let text = "";
    for (let at = from; at < past; at++) text += `${this.text(at)}\n`;
    return text;
  }
}
