import { Fault } from "../fault.js";
import { SKIPPED, marksByOctet } from "./forms.js";

/** @typedef {import("./forms.js").Form} Form */

/**
 * Reads a text capture that comes in pieces, as octets of a packed one; a fault comes once what stands before it was
 * given.
 */
export class TextReader {
  read = 0; // octets of the text
  held = 0; // marks of an octet that is not whole
  shift = 0;

  /** @param {Form} form @param {(octets: Uint8Array, marks: number) => void} give octets that have so many marks each */
  constructor(form, give) {
    this.table = marksByOctet(form);
    this.width = form.width;
    this.give = give;
  }

  /** @param {Uint8Array} text */
  take(text) {
    const { table, width } = this;
    const octets = new Uint8Array((text.length * width >> 3) + 1);
    let { held, shift } = this;
    let [at, count] = [0, 0];
    for (; at < text.length; at++) {
      const mark = table[text[at]];
      if (mark === SKIPPED) continue;
      if (mark > SKIPPED) break;
      held |= mark << shift;
      shift += width;
      if (shift < 8) continue;
      octets[count++] = held;
      held = shift = 0;
    }
    Object.assign(this, { held, shift });
    this.give(octets.subarray(0, count), 8 / width);
    if (at < text.length) this.refuse(at);
    this.read += text.length;
  }

  /** @param {number} at the octet of the piece that is neither a mark nor between marks */
  refuse(at) {
    this.end();
    throw new Fault(`octet ${this.read + at} is no bit`);
  }

  end() {
    if (this.shift > 0) this.give(Uint8Array.of(this.held), this.shift / this.width);
  }
}
