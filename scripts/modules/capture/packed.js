import { Fault } from "../fault.js";
import { joined } from "../octets.js";
import { HEAD, countOf } from "./forms.js";

/** @typedef {import("./forms.js").Form} Form */

/** Reads a packed capture that comes in pieces; a fault comes once what stands before it was given. */
export class PackedReader {
  head = new Uint8Array(0);
  left = 0; // marks that are still to come

  /** @param {Form} form @param {(octets: Uint8Array, marks: number) => void} give octets that have so many marks each */
  constructor(form, give) {
    this.form = form;
    this.give = give;
  }

  /** @param {Uint8Array} octets */
  take(octets) {
    const needed = Math.min(HEAD - this.head.length, octets.length);
    if (needed > 0) {
      this.head = joined(this.head, octets.subarray(0, needed));
      if (this.head.length < HEAD) return;
      this.left = countOf(this.form, this.head);
    }
    this.takeBody(octets.subarray(needed));
  }

  /** @param {Uint8Array} octets */
  takeBody(octets) {
    const inOctet = 8 / this.form.width;
    const whole = Math.min(octets.length, Math.floor(this.left / inOctet));
    this.hand(octets.subarray(0, whole), inOctet);
    if (whole === octets.length) return;
    const rest = octets[whole] >> (this.left * this.form.width);
    if (this.left > 0 && rest !== 0) throw new Fault("spare bits are not 0");
    const used = Math.min(1, this.left);
    this.hand(octets.subarray(whole, whole + used), this.left);
    if (whole + used < octets.length) throw new Fault("octets after the end");
  }

  /** @param {Uint8Array} octets @param {number} marks */
  hand(octets, marks) {
    this.left -= octets.length * marks;
    this.give(octets, marks);
  }

  end() {
    if (this.head.length < HEAD) throw new Fault("short head");
    if (this.left > 0) throw new Fault("short body");
  }
}
