import { RATE, SILENCE } from "../port1.js";

/** A level that stands for less than this part of a bit is a glitch, and so is one of one sample of so many of a bit. */
const GLITCH = 16;
const ENOUGH = 8;

/** Each edge may come so many seconds too soon or too late. Distances of edges may differ by so many samples anyway. */
const JITTER = 250e-9;
const LEAST = 3;

/** Rounding to samples makes two distances in a row differ by so many more. */
const ROUNDING = 2;

/** The most samples of a hold. */
const MOST_HOLD = 65535;

/**
 * How a recording is sampled.
 * @param {{ hasRuns: boolean, ticks: number|null }} recording
 * @param {number} silence a clock that stands for more bits than these has stopped; 0 for never
 * @returns {{ hold: number, jump: number, rest: number }} a level counts once it stood in `hold` + 1 samples; a distance
 *   of edges that differs from the one before by more than `jump` samples is a jump; `rest` is the silence in samples.
 *   Runs have ticks in place of samples, which may be many for each sample of the analyser: there half a bit is a jump.
 */
export function samplingOf({ hasRuns, ticks }, silence = SILENCE) {
  if (ticks === null) return { hold: 0, jump: LEAST, rest: 0 };
  const bit = ticks / RATE;
  const least = bit < ENOUGH || hasRuns ? 0 : 1;
  const hold = Math.min(MOST_HOLD, Math.max(least, Math.floor(bit / GLITCH)));
  const jump = hasRuns ? bit / 2 : 4 * JITTER * ticks + ROUNDING;
  return { hold, jump: Math.max(LEAST, Math.floor(jump)), rest: Math.round(silence * bit) };
}
