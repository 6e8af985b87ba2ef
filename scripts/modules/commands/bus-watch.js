import { Fault } from "../fault.js";
import { RATE } from "../port1.js";
import { DayTime } from "../statistics/day-time.js";
import { misuse, run, warn, whole, wordsOf, writeText } from "../system/command.js";
import { textIn } from "../system/file.js";
import { programNamed } from "../system/program.js";
import { onEndOfStream } from "../system/signals.js";
import { refusalOf } from "../watch/decoder.js";
import { PAIRS, arrivalsOf } from "../watch/forms.js";
import { roomOf } from "../watch/limits.js";
import { hold } from "../watch/lock.js";
import { Input, Source } from "../watch/source.js";
import { RecordedWall, Wall, iso } from "../watch/wall.js";
import { Watch } from "../watch/watch.js";

/** How long no input is a stall, in seconds, and how often that is looked at, in milliseconds. */
const [STALL, BEAT] = [3, 500];

/**
 * The longest gaps of kinds, as 16:0=200,1:1=90 has them in milliseconds.
 * @param {string} text
 */
function gapsOf(text) {
  const pairs = text.split(",").map((/** @type {string} */ part) => {
    const [, station, type, length] = /^(\d{1,3}):(\d{1,3})=(\d+(?:\.\d+)?)$/.exec(part) ?? [];
    if (length === undefined) throw new Fault(`${JSON.stringify(part)} is not as 16:0=200`);
    return /** @type {[string, number]} */ ([`${Number(station)}/${Number(type)}`, (Number(length) * RATE) / 1000]);
  });
  return new Map(pairs);
}

/** @param {string} text */
const seconds = (text) => {
  if (!/^\d+(\.\d+)?$/.test(text)) throw new Fault(`${JSON.stringify(text)} is no number of seconds`);
  return Number(text);
};

/** @param {string} text @param {string} program */
function dictionaryOf(text, program) {
  const dictionary = textIn(text).replace(/\n+$/, "");
  const refusal = refusalOf(program, dictionary);
  if (refusal !== "") throw new Fault(`${text}: ${refusal}`);
  return dictionary;
}

/**
 * Writes a line for whoever reads; that nobody does, or that its disk is full, is no reason to end.
 * @param {(text: string) => void} write
 */
const safely = (write) => (/** @type {string} */ text) => {
  try {
    write(text);
  } catch {
    // of events the log has it
  }
};

/** @param {string} text @returns {number} seconds since 1970 */
const timeOf = (text) => new DayTime(text).begin / 1000;

const OPTIONS = {
  ...{ dictionary: String, source: String, two: /** @type {true} */ (true), rest: whole, begin: timeOf },
  ...{ before: seconds, after: seconds, longest: seconds, lost: seconds, gap: gapsOf },
  ...{ ring: roomOf, keep: roomOf, floor: roomOf, prometheus: String, run: String },
};

/** What runs the watch: its input, its pulse, and its end. */
class Duty {
  isOver = false;
  isToRead = false;
  quiet = 0; // when input came last, or a source began, in milliseconds
  /** @type {number|null} */
  stalled = null; // the same before it stalled, if it does
  isTaking = false;
  input = /** @type {Input} */ (/** @type {unknown} */ (null)); // until it goes

  /** @param {Watch} watch @param {string|undefined} command @param {() => string} readDictionary */
  constructor(watch, command, readDictionary) {
    this.watch = watch;
    this.isLive = watch.wall instanceof Wall;
    this.readDictionary = readDictionary;
    this.source = command === undefined ? null : new Source(command, (text) => watch.log("doubt", { text }));
    process.on("SIGHUP", () => (this.isToRead = true));
  }

  stop() {
    this.isOver = true;
    if (this.source) this.source.stop();
    else this.input.hasEnded = true;
    this.input.wake();
  }

  /** Tells that nothing comes. */
  beat() {
    this.watch.judge();
    if (this.watch.decoder.hasEnded) this.input.wake();
    const isWaiting = this.isLive && this.stalled === null && !this.isTaking;
    if (!isWaiting || performance.now() - this.quiet < 1000 * STALL) return;
    this.stalled = this.quiet;
    this.watch.log("input stalled", { since: iso(this.watch.wall.now() - STALL) });
  }

  /** @param {Buffer} piece */
  async take(piece) {
    if (this.stalled !== null) {
      this.watch.incidents.seam(this.watch.packer.places);
      this.watch.log("input goes on", { seconds: Math.round((performance.now() - this.stalled) / 100) / 10 });
    }
    [this.stalled, this.isTaking] = [null, true];
    await this.watch.take(piece);
    [this.isTaking, this.quiet] = [false, performance.now()];
  }

  /** Reads the dictionary again; one that is refused is told, and the old one stays. */
  async read() {
    this.isToRead = false;
    try {
      await this.watch.change(this.readDictionary());
    } catch (fault) {
      safely(warn)(/** @type {Error} */ (fault).message);
    }
  }

  /** Reads an input to its end, and tells whether `port1` went on. */
  async readAll() {
    for (let piece = await this.input.next(); ; piece = await this.input.next()) {
      if (this.watch.decoder.hasEnded) return false;
      if (piece !== null) await this.take(piece);
      if (this.isToRead) await this.read();
      if (piece === null && this.input.hasEnded) return true;
    }
  }

  async go() {
    onEndOfStream(() => this.stop());
    this.quiet = performance.now();
    const timer = setInterval(() => this.beat(), BEAT);
    let isWell = true;
    do {
      this.input = new Input(this.source ? this.source.start() : process.stdin);
      isWell = await this.readAll();
      if (this.source && isWell) await this.restart(this.source);
    } while (this.source && isWell && !this.isOver);
    clearInterval(timer);
    if (!isWell) this.source?.stop();
    await this.watch.end(isWell);
    if (!isWell) throw new Fault(`port1 ended${this.watch.decoder.said && `: ${this.watch.decoder.said.trim()}`}`);
  }

  /**
   * Tells how the source ended, and waits.
   * @param {Source} source
   */
  async restart(source) {
    const { status, said, wait } = await source.ended();
    this.watch.seam("source ended", { status, said, again: this.isOver ? null : wait });
    for (const until = performance.now() + 1000 * wait; !this.isOver && performance.now() < until; ) {
      await new Promise((done) => setTimeout(done, BEAT / 5));
    }
    this.quiet = performance.now();
  }
}

run(async () => {
  const { values, words: [folder] } = wordsOf(OPTIONS, ["FOLDER"]);
  if (values.dictionary === undefined) throw misuse("there is no --dictionary");
  if (values.two && values.rest !== undefined) throw misuse("--rest is for bits in order of arrival, not for --two");
  const program = programNamed("port1");
  const readDictionary = () => dictionaryOf(/** @type {string} */ (values.dictionary), program);
  const wall = values.begin === undefined ? new Wall(values.lost ?? 0.5) : new RecordedWall(values.begin);
  const { before = 10, after = 10, longest = 120, ring = 4 * 2 ** 30, keep = 2 ** 30, floor = 2 ** 29 } = values;
  const dictionary = readDictionary();
  hold(folder);
  const watch = new Watch({
    ...{ folder, program, form: values.two ? PAIRS : arrivalsOf(values.rest) },
    ...{ limits: { before, after, longest, ring, keep, floor }, gaps: values.gap ?? new Map(), wall },
    dictionary,
    ...{ prometheus: values.prometheus, run: values.run, write: safely(writeText), warn: safely(warn) },
  });
  const duty = new Duty(watch, values.source, readDictionary);
  await watch.begin();
  await duty.go();
  process.exit(0);
});
