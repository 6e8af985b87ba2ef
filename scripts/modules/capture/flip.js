import { Fault } from "../fault.js";
import { FORMS, SKIPPED, marksByOctet } from "./forms.js";

const TABLE = marksByOctet(FORMS[1]);

/** Inverts bits of a text capture of one line. */
export class Flipper {
  read = 0; // octets
  bits = 0;
  done = 0; // of the places

  /** @param {number[]} places in their order */
  constructor(places) {
    this.places = places;
  }

  /** @param {Uint8Array} piece @returns {Uint8Array} the same with its bits inverted */
  take(piece) {
    const flipped = piece.slice();
    for (let at = 0; at < piece.length; at++) {
      const mark = TABLE[piece[at]];
      if (mark === SKIPPED) continue;
      if (mark > SKIPPED) throw new Fault(`octet ${this.read + at} is no bit`);
      if (this.bits === this.places[this.done]) {
        flipped[at] ^= 1;
        this.done += 1;
      }
      this.bits += 1;
    }
    this.read += piece.length;
    return flipped;
  }

  end() {
    const { bits, places, done } = this;
    if (done < places.length) throw new Fault(`no bit has the place ${places[done]}: the capture has ${bits}`);
  }
}
