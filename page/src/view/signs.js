/**
 * Signs of what is wrong, each of its own form, in a square of 16: colour is never alone.
 * @type {Record<import("../../../scripts/modules/statistics/findings.js").Sign | "pending", string>}
 */
export const SIGNS = {
  missing: "M3 1 8 6 13 1 15 3 10 8 15 13 13 15 8 10 3 15 1 13 6 8 1 3Z",
  late: "M8 1A7 7 0 1 1 7.9 1ZM7 3.5V8.6L11 11 12 9.5 9 7.7V3.5Z",
  spoilt: "M8 0.5 15.5 8 8 15.5 0.5 8Z",
  stray: "M8 1 15 14H1ZM7 6V10H9V6ZM7 11V13H9V11Z",
  pending: "M1 6H4V10H1ZM6.5 6H9.5V10H6.5ZM12 6H15V10H12Z",
  damage: "M9 0 3 9H7.5L6 16 13 6.5H8.5Z",
  gap: "M1 2H3V14H1ZM13 2H15V14H13ZM5 7H7V9H5ZM9 7H11V9H9Z",
  rest: "M1 2H3V14H1ZM5 7H7V9H5ZM9 7H11V9H9ZM13 7H15V9H13Z",
  silent: "M8 1A7 7 0 1 1 7.9 1ZM3.6 5 11 12.4 12.4 11 5 3.6Z",
  lines: "M10 1 15 5 10 9V6H1V4H10ZM6 7 1 11 6 15V12H15V10H6Z",
  length: "M1 1H15V15H1ZM7 3V9H9V3ZM7 11V13H9V11Z",
  more: "M1 6H4V10H1ZM6.5 6H9.5V10H6.5ZM12 6H15V10H12Z",
};

/** The signs of a verdict, in a square of 48: a cross in an octagon, an exclamation in a triangle, a tick, a question. */
export const VERDICTS = {
  fault: "M15 2H33L46 15V33L33 46H15L2 33V15ZM16 12 12 16 20 24 12 32 16 36 24 28 32 36 36 32 28 24 36 16 32 12 24 20Z",
  doubt: "M24 3 47 44H1ZM21.5 17V31H26.5V17ZM21.5 34V39H26.5V34Z",
  well: "M24 2A22 22 0 1 1 23.9 2ZM11 25 21 35 38 16 34.5 13 20.7 28.5 14.3 22Z",
  unknown: "M24 2A22 22 0 1 1 23.9 2ZM16 18H21C21 13 28 13 28 18 28 21 22 22 22 29H26.5C26.5 25 33 23 33 18 33 7 16 7 16 18ZM22 33V38H26.5V33Z",
};

const SPACE = "http://www.w3.org/2000/svg";

/**
 * A sign as a picture.
 * @param {keyof typeof SIGNS} sign
 */
export function signOf(sign) {
  const picture = document.createElementNS(SPACE, "svg");
  picture.setAttribute("viewBox", "0 0 16 16");
  picture.setAttribute("aria-hidden", "true");
  const path = document.createElementNS(SPACE, "path");
  path.setAttribute("d", SIGNS[sign]);
  path.setAttribute("class", `sign ${sign}`);
  path.setAttribute("fill-rule", "evenodd");
  picture.append(path);
  return picture;
}
