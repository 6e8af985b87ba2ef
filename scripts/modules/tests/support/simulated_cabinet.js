// A cabinet for ever, as text: node simulated_cabinet.js SEED FROM UNTIL [SCHEDULE [SPEED [arrivals]]]
//
// Rounds of 40 ms: type 0 to station 16, a poll of 1 and one of 2, each with its answer. All is a function of seed and
// place, so that another process can go on from any place. A line of the schedule has the places of a fault, its kind
// and a number; at a `wait`, it waits for a file named go. SPEED 0 is as fast as it goes, and waits for nothing.
// Standard error has the places written, in the end.

import { existsSync, readFileSync, writeSync } from "node:fs";

const [ROUND, RATE] = [6144, 153600];

const [seed, from, until] = process.argv.slice(2, 5).map(Number);
const [file = "", speed = "0", form = "pairs"] = process.argv.slice(5);

/** A fault: its places, its kind, and a station or a share of wrong bits. */
const faults = (file && readFileSync(file, "latin1")).split("\n").filter(Boolean).map((line) => {
  const [begin, past, kind, number] = line.split(" ");
  return { begin: Number(begin), past: Number(past), kind, number: Number(number) };
});

let state = 0;

/** A number below a limit, at random. */
function below(limit) {
  state = (state + 0x6d2b79f5) | 0;
  let mixed = Math.imul(state ^ (state >>> 15), 1 | state);
  mixed = (mixed + Math.imul(mixed ^ (mixed >>> 7), 61 | mixed)) ^ mixed;
  return ((mixed ^ (mixed >>> 14)) >>> 0) % limit;
}

/** The characters of the two lines, and where the second one has a clock. */
const [first, second, clock] = [new Uint8Array(ROUND), new Uint8Array(ROUND), new Uint8Array(ROUND)];

const [ZERO, ONE] = [48, 49];

const COMMANDS = [
  { at: 40, station: 16, type: 0 },
  { at: 2000, station: 1, type: 1 },
  { at: 4000, station: 2, type: 1 },
];

/** Those in a round. */
let near = faults;

function faultAt(place, wanted) {
  return near.find(({ begin, past, kind }) => kind === wanted && begin <= place && place < past);
}

const FLAG = [0, 1, 1, 1, 1, 1, 1, 0];

/** A frame between two flags, its check behind it, as bits (ISO/IEC 13239, 4.2 to 4.5). */
function encoded(octets) {
  let check = 0xffff;
  for (const octet of octets) {
    check ^= octet;
    for (let bit = 0; bit < 8; bit++) check = check & 1 ? (check >> 1) ^ 0x8408 : check >> 1;
  }
  const bits = [];
  let ones = 0;
  for (const octet of [...octets, ~check & 255, (~check >> 8) & 255]) {
    for (let at = 0; at < 8; at++) {
      const bit = (octet >> at) & 1;
      bits.push(bit);
      ones = bit ? ones + 1 : 0;
      if (ones === 5) ones = bits.push(0) * 0;
    }
  }
  return [...FLAG, ...bits, ...FLAG];
}

/** Puts a frame on a line, some of its bits wrong. @returns {number} where it ends */
function put(line, at, octets, wrong) {
  const bits = encoded(octets);
  for (let bit = 0; bit < bits.length; bit++) line[at + bit] = ZERO + bits[bit];
  for (let count = 0; count < wrong; count++) line[at + 8 + below(bits.length - 16)] ^= 1;
  return at + bits.length;
}

/** What becomes of a command by the schedule, or now and then by itself. */
function fateOf(place, { station }, isQuiet) {
  const has = (kind) => !isQuiet && faultAt(place, kind);
  const isOwn = (fault) => Boolean(fault) && fault.number === station;
  const alone = below(200000);
  const wrong = station === 16 && has("destroy") ? 3 : alone === 0 ? 1 : 0;
  const isSkipped = station === 16 && Boolean(has("skip"));
  return { wrong, isSkipped, isSilent: isOwn(has("silent")) || alone === 1, isLate: isOwn(has("late")) || alone === 2 };
}

/** Makes a round: what the two lines have at its places; whether some of these are lost, or a clock stands still. */
function make(number) {
  const base = number * ROUND;
  state = Math.imul(seed * 7919 + number, 0x9e3779b1) | 0;
  for (const line of [first, second]) line.fill(ONE);
  clock.fill(0);
  near = faults.filter(({ begin, past }) => begin < base + ROUND && base < past);
  const isQuiet = near.length === 0;
  for (const command of COMMANDS) {
    const begin = command.at + below(6);
    const { wrong, isSkipped, isSilent, isLate } = fateOf(base + begin, command, isQuiet);
    const data = command.station === 16 ? [below(256), below(256)] : [];
    const octets = [command.station, 0x83, command.type, ...data];
    const past = isSkipped ? begin : put(first, begin, octets, wrong);
    const answer = past + (isLate ? 500 + below(400) : 150 + below(290));
    if (wrong || isSkipped || isSilent) continue;
    const end = put(second, answer, [command.station, 0x83, command.type + 128, below(256), below(256)], 0);
    clock.fill(1, answer - 16, end + 24);
  }
  if (near.some(({ kind }) => kind === "burst" || kind === "rest")) disturb(base);
  return near.some(({ kind }) => kind === "lose" || kind === "still");
}

/** Wrong bits, and a rest of both lines. */
function disturb(base) {
  for (let at = 0; at < ROUND; at++) {
    const burst = faultAt(base + at, "burst");
    if (burst && below(100000) < burst.number * 100000) first[at] ^= 1;
    if (burst && below(100000) < burst.number * 100000) second[at] ^= 1;
    if (faultAt(base + at, "rest")) first[at] = second[at] = ONE;
  }
}

const room = Buffer.alloc(2 * ROUND * 33);
let held = 0;
let written = from;

/** Writes what is held; whoever reads may have been ended. */
function flush() {
  try {
    for (let at = 0; at < held; ) at += writeSync(1, room, at, held - at);
  } catch (error) {
    const { code = "" } = /** @type {{ code?: string }} */ (error);
    if (code !== "EPIPE" && code !== "ECONNRESET") throw error;
    console.error(`places ${from} ${written}`);
    process.exit(0);
  }
  held = 0;
}

/** Writes places of a round of which none is lost. */
function copy(at, past) {
  if (form === "pairs") {
    for (; at < past; at++) room[held++] = first[at] + 2 * (second[at] - ZERO);
    return;
  }
  while (at < past) {
    const next = clock.indexOf(1, at);
    const end = next < 0 || next > past ? past : next;
    room.set(first.subarray(at, end), held);
    held += end - at;
    for (at = end; at < past && clock[at]; at++) {
      room[held++] = first[at];
      room[held++] = second[at] === ONE ? 105 : 111;
    }
  }
}

/** Writes places of which some are lost, and where the second clock may stand still. */
function copyFaulty(base, at, past) {
  for (; at < past; at++) {
    if (faultAt(base + at, "lose")) continue;
    if (faultAt(base + at, "still")) [clock[at], second[at]] = [0, ONE];
    copy(at, at + 1);
  }
}

/** @param {number} milliseconds */
const pause = (milliseconds) => Atomics.wait(new Int32Array(new SharedArrayBuffer(4)), 0, 0, milliseconds);

const begun = performance.now() - (1000 * from) / (RATE * (Number(speed) || 1));

for (let place = from; place < until; ) {
  const base = place - (place % ROUND);
  const isPartial = make(base / ROUND);
  const past = Math.min(until, base + ROUND);
  if (isPartial) copyFaulty(base, place - base, past - base);
  else copy(place - base, past - base);
  written = place = past;
  while (faults.length > 0 && faults[0].past < place - 60 * RATE) faults.shift();
  if (held > 2 * ROUND * 32 || speed !== "0") flush();
  while (speed !== "0" && near.some(({ kind }) => kind === "wait") && !existsSync("go")) pause(20);
  const early = speed === "0" ? 0 : begun + (1000 * place) / (RATE * Number(speed)) - performance.now();
  if (early > 1) pause(early);
}
flush();
console.error(`places ${from} ${written}`);
