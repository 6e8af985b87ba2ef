// Random listings with all that can be wrong on a bus, as the lines of `port1 list`.

import { randomOf } from "./random.js";

const NAMES = [
  ...["call", "poll", "a", "x".repeat(40), "well-known--name", "--", "ms", "-s-x-"],
  ...["b1-c2-d3-e4-f5-g6-h7-i8-j9", "y".repeat(150), "long-word--".repeat(14)],
];
const CAUSES = ["damaged fcs", "damaged short", "damaged unaligned", "damaged unstuffed", "overlong", "abort"];
const FRAME = 41;

const hex = (number) => number.toString(16).padStart(2, "0");

/** The kinds of commands that a bus has, with how often they come and how their stations behave. */
function kindsOf(random) {
  const kinds = [];
  for (let count = random.between(1, 9); count > 0; count -= 1) {
    kinds.push({
      station: random.one([0, 1, 2, 16, 17, random.below(255)]),
      type: random.below(random.one([2, 128])),
      name: random.one(NAMES),
      habit: random.one(["good", "good", "mixed", "mixed", "silent", "late", "spoilt", "other", "unasked"]),
      least: random.below(300),
      spread: random.one([1, 50, 2000, 60_000]),
      lack: random.one([1_000_000, 40, 10, 3]),
    });
  }
  return kinds;
}

/** A writer of the lines of a listing of one line of the bus or of two. */
function writerOf(isOfTwo) {
  const texts = [];
  const write = (line, first, past, words) => texts.push(`${isOfTwo ? `${line} ` : ""}${first} ${past} ${words}\n`);
  return {
    texts,
    write,
    frame: (line, first, station, type, name) => {
      const shown = name === "" ? "" : ` station ${station} type ${type} ${name}`;
      write(line, first, first + FRAME, `frame ${hex(station)}83${hex(type)}fde5${shown}`);
    },
    verdict: (word, first, { station, type }) =>
      write(1, first, first + FRAME, `${word} station ${station} type ${type}`),
  };
}

function answer(bus, kind, first, word) {
  const begins = first + FRAME + kind.least + bus.random.below(kind.spread);
  bus.frame(2, begins, kind.station, kind.type + 128, bus.named("reply"));
  bus.verdict(word, first, kind);
}

function damage(bus, line, first) {
  bus.write(line, first, first + bus.random.between(1, 50), bus.random.one(CAUSES));
}

function spoil(bus, kind, first) {
  damage(bus, bus.random.between(1, 2), first + 60);
  if (bus.random.once(3)) {
    bus.write(2, first + 70, first + 111, `stray station ${kind.station} type ${kind.type + 128}`);
  }
  bus.verdict("spoilt", first, kind);
}

function replace(bus, kind, first) {
  const name = bus.named(bus.random.one(["length", "unknown", "state"]));
  const [station, type] = [bus.random.one([kind.station, 9]), bus.random.between(128, 255)];
  bus.frame(2, first + 60, station, type, name);
  bus.write(2, first + 60, first + 101, `stray station ${station} type ${type}`);
  bus.verdict("missing", first, kind);
}

const FATES = {
  good: (bus, kind, first) => answer(bus, kind, first, "answered"),
  late: (bus, kind, first) => answer(bus, kind, first, bus.random.one(["late", "answered"])),
  silent: (bus, kind, first) => bus.verdict("missing", first, kind),
  spoilt: spoil,
  other: replace,
  unasked: () => undefined,
};

function exchange(bus, kind, first) {
  if (bus.random.once(kind.lack)) {
    if (bus.random.once(2)) damage(bus, 1, first);
    return;
  }
  bus.frame(bus.commandLine, first, kind.station, kind.type, bus.named(kind.name));
  const fate = kind.habit === "mixed" ? bus.random.one(Object.keys(FATES)) : kind.habit;
  FATES[bus.random.once(20) ? "silent" : fate](bus, kind, first);
}

function extra(bus, first) {
  const what = bus.random.below(8);
  if (what === 0) {
    bus.write(2, first, first + 15, "idle");
  } else if (what === 1) {
    bus.write(1, first, first + 32, `frame 1083452c${bus.named("") === "" ? "" : " untyped"}`);
  } else if (what === 2) {
    bus.write(1, first, first + 32, "frame 1013ccb8");
  } else if (what === 3) {
    const many = bus.random.one([1, 3, 50]);
    for (let count = 0; count < many; count += 1) {
      damage(bus, bus.random.between(1, 2), first + count * 20);
    }
  }
}

function ending(bus, kind, place) {
  if (bus.random.once(3)) bus.write(1, place, place + 1, "open");
  for (let count = bus.random.one([0, 0, 1, 2]); count > 0; count -= 1) {
    bus.verdict("pending", place, kind);
  }
}

/**
 * The text of a random listing.
 * @param {number} seed
 * @param {boolean} isOfTwo whether it is of two lines of the bus
 * @returns {string}
 */
export function madeListing(seed, isOfTwo) {
  const random = randomOf(seed);
  const isNamed = !random.once(6);
  const bus = {
    ...{ random, ...writerOf(isOfTwo), named: (name) => (isNamed ? name : "") },
    commandLine: random.once(20) ? 2 : 1,
  };
  const kinds = kindsOf(random);
  const round = random.one([1000, 15_360, 15_361, 1_000_000, 200_000_000, 3_000_000_000]);
  let place = random.one([0, 0, 8, 1_000_000_007, 2 ** 50]);
  for (let rounds = random.one([0, 1, 3, 4, 10, 40, 120]); rounds > 0; rounds -= 1) {
    for (const kind of random.once(3) ? [random.one(kinds)] : kinds) {
      exchange(bus, kind, place);
      extra(bus, place + 200);
      place += Math.floor(round / kinds.length) + random.below(4);
    }
    place += random.once(25) ? round * random.between(1, 30) : 0;
  }
  ending(bus, kinds[0], place);
  return bus.texts.join("");
}

/**
 * The text of a listing of damaged pieces in bursts, and of others that are spread.
 * @param {number} seed
 * @returns {string}
 */
export function madeDamage(seed) {
  const random = randomOf(seed);
  const length = random.one([10_000, 153_600, 100_000_000, 10_000_000_000]);
  const places = Array.from({ length: random.one([0, 2, 30, 6000]) }, () => random.below(length));
  for (let bursts = random.below(4); bursts > 0; bursts -= 1) {
    const [begin, width] = [random.below(length), Math.ceil(length / random.one([7, 100, 1000]))];
    places.push(...Array.from({ length: random.one([3, 30, 2000]) }, () => begin + random.below(width)));
  }
  places.sort((one, other) => one - other);
  return [0, ...places, length].map((place) => `${place} ${place + 9} ${random.one(CAUSES)}\n`).join("");
}
