/** @typedef {import("d3-scale").Scale} Scale */
/** @typedef {import("../worker/structure.js").Structure} Structure */
/** @typedef {import("d3-selection").Selection<SVGGElement>} Group */

/**
 * Some bits of a line, and what those of its frames are.
 * @typedef {{ name: string, bits: import("../engine/marks.js").Bit[], structures: Structure[] }} Digits
 */

/**
 * A bit, and where it is in the picture.
 * @typedef {import("../engine/marks.js").Bit & { x: number }} Bit
 */

/** The heights of a row of digits, and of the row with their octets. */
const DIGITS = 18;
const OCTETS = 14;

/** So wide a bit is shown as a digit; narrower ones as the level of the line. */
const LEAST_WIDTH = 6;

/** So wide an octet has its number. */
const LEAST_OCTET = 20;

/** @param {Scale} scale */
const widthOf = (scale) => scale(1) - scale(0);

/**
 * How high the bits of a line are drawn: with their octets where these are wide enough.
 * @param {{ structures: Structure[] }} line
 * @param {Scale} scale
 */
export function heightOfDigits({ structures }, scale) {
  return DIGITS + (structures.length > 0 && 8 * widthOf(scale) >= LEAST_OCTET ? OCTETS : 0);
}

/**
 * Draws the bits of a line, the octets and flags that they are, and the zeros that the sender put in.
 * @param {Group} group
 * @param {Digits} line
 * @param {Scale} scale
 */
export function drawDigits(group, { name, bits, structures }, scale) {
  group.append("text").attr("x", 4).attr("y", DIGITS - 5).attr("class", "about").text(name);
  const [left, right] = scale.range();
  const digits = bits.map((bit) => ({ ...bit, x: scale(bit.place + 0.5) }));
  const shown = digits.filter(({ x }) => x >= left && x <= right);
  const width = widthOf(scale);
  if (width < LEAST_WIDTH) drawLevels(group, shown, width);
  else drawText(group, shown, new Set(structures.flatMap(({ zeros }) => zeros)));
  if (heightOfDigits({ structures }, scale) > DIGITS) drawOctets(group, structures, scale);
}

/** @param {Group} group @param {Bit[]} shown @param {Set<number>} zeros */
function drawText(group, shown, zeros) {
  /** @param {Bit} bit */
  const isInserted = ({ place }) => zeros.has(place);
  const texts = group
    .selectAll("text.bits")
    .data(shown)
    .enter()
    .append("text")
    .attr("class", (bit) => (isInserted(bit) ? "bits inserted" : "bits"))
    .attr("text-anchor", "middle")
    .attr("x", ({ x }) => x)
    .attr("y", DIGITS - 5)
    .text(({ digit }) => String(digit));
  texts.filter(isInserted).append("title").text("a zero that the sender put in after five ones");
}

/**
 * Too narrow for digits: the level, as a logic analyser draws it.
 * @param {Group} group
 * @param {Bit[]} shown
 * @param {number} width
 */
function drawLevels(group, shown, width) {
  /** @param {number} digit */
  const y = (digit) => (digit === 1 ? 4 : DIGITS - 5);
  const steps = shown.map(({ digit, x }) => `L${x - width / 2} ${y(digit)}L${x + width / 2} ${y(digit)}`);
  group.append("path").attr("class", "bits-line").attr("d", steps.join("").replace("L", "M"));
}

/**
 * A bracket below each octet and flag, with what it is. A flag between two frames is of both.
 * @param {Group} group
 * @param {Structure[]} structures
 * @param {Scale} scale
 */
function drawOctets(group, structures, scale) {
  const [left, right] = scale.range();
  const parts = new Map(structures.flatMap((some) => some.parts).map((part) => [part.first, part]));
  for (const { first, past, text } of parts.values()) {
    const [begin, end] = [Math.max(left, scale(first) + 1), Math.min(right, scale(past) - 1)];
    if (end <= begin) continue;
    group.append("path").attr("class", "octet-bracket").attr("d", `M${begin} ${DIGITS - 3}v3H${end}v-3`);
    if (end - begin < LEAST_OCTET - 4) continue;
    const label = group.append("text").attr("class", "bits octet").attr("text-anchor", "middle").text(text);
    label.attr("x", (begin + end) / 2).attr("y", DIGITS + OCTETS - 4);
  }
}
