/** The forms of captures of two lines, as text and packed: four marks in an octet, the first one lowest. */

import { FORMS, SKIPPED, headOf, marksByOctet } from "../capture/forms.js";

/**
 * How many places each packed octet takes.
 * @param {number[]} steps of each mark
 */
const widthsOf = (steps) =>
  Uint8Array.from({ length: 256 }, (_, octet) => [0, 2, 4, 6].reduce((sum, at) => sum + steps[(octet >> at) & 3], 0));

/** @param {string[]} options of `port1 list` @param {import("../capture/forms.js").Form} form @param {number[]} steps */
const placed = (options, form, steps) => ({ ...form, options, steps, table: marksByOctet(form), widths: widthsOf(steps) });

/** @typedef {ReturnType<typeof placed>} Form */

/** Pairs of bits, one of each line, at the places of one clock. */
export const PAIRS = placed(["--two"], FORMS[2], [1, 1, 1, 1]);

/**
 * The bits of both lines as they arrived: a place is a bit of the first one.
 * @param {number} [rest] after how many of them without one of the second line this is brought to rest
 */
export const arrivalsOf = (rest) =>
  placed(["--arrivals", ...(rest === undefined ? [] : [`--rest=${rest}`])], FORMS.arrivals, [1, 1, 0, 0]);

export const ARRIVALS = arrivalsOf();

/** Packs a text that comes in pieces. */
export class TextPacker {
  places = 0; // of all that was taken
  held = 0; // marks that fill no octet yet,
  shift = 0; // their bits,
  width = 0; // and their places

  /** @param {Form} form */
  constructor(form) {
    this.form = form;
  }

  /** The place at which the next packed octet begins. */
  get begin() {
    return this.places - this.width;
  }

  /** @param {Uint8Array} text @returns {Uint8Array} the octets that are full */
  take(text) {
    const { table, steps, widths } = this.form;
    const octets = new Uint8Array((text.length >> 2) + 1);
    let { held, shift, places, width } = this;
    let count = 0;
    for (let at = 0; at < text.length; at++) {
      if (shift === 0 && at + 4 <= text.length) {
        const [one, two] = [table[text[at]], table[text[at + 1]]];
        const [three, four] = [table[text[at + 2]], table[text[at + 3]]];
        if ((one | two | three | four) < SKIPPED) {
          const octet = one | (two << 2) | (three << 4) | (four << 6);
          octets[count++] = octet;
          places += widths[octet];
          at += 3;
          continue;
        }
      }
      const mark = table[text[at]];
      if (mark >= SKIPPED) continue;
      held |= mark << shift;
      shift += 2;
      places += steps[mark];
      width += steps[mark];
      if (shift < 8) continue;
      octets[count++] = held;
      held = shift = width = 0;
    }
    Object.assign(this, { held, shift, places, width });
    return octets.subarray(0, count);
  }
}

/**
 * How many octets lie before so many places.
 * @param {Form} form
 * @param {Uint8Array} octets
 * @param {number} places
 */
export function octetsBefore({ widths }, octets, places) {
  let passed = 0;
  let at = 0;
  while (at < octets.length && passed + widths[octets[at]] <= places) passed += widths[octets[at++]];
  return { at, passed };
}

/**
 * A packed capture.
 * @param {Form} form
 * @param {Uint8Array} octets
 */
export const captureOf = (form, octets) => Buffer.concat([headOf(form, 4 * octets.length), octets]);
