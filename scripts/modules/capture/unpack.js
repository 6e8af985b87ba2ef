import { PackedReader } from "./packed.js";

/** Marks of a line. */
const LINE = 64;

const LINE_END = 10;

/** @typedef {import("./forms.js").Form} Form */

/**
 * The marks of each octet, as octets of text.
 * @param {Form} form
 */
function marksOf({ marks, width }) {
  const shifts = Array.from({ length: 8 / width }, (_, at) => width * at);
  const mask = (1 << width) - 1;
  return Array.from({ length: 256 }, (_, octet) => shifts.map((shift) => marks.charCodeAt((octet >> shift) & mask)));
}

/** Writes the marks of a packed capture as lines of text, the last of which a fault ends, too. */
export class Unpacker {
  column = 0; // of the line that is written

  /** @param {Form} form @param {(text: Uint8Array) => void} write */
  constructor(form, write) {
    this.marks = marksOf(form);
    this.write = write;
    this.reader = new PackedReader(form, (octets, count) => this.put(octets, count));
  }

  /** @param {Uint8Array} octets */
  take(octets) {
    try {
      this.reader.take(octets);
    } catch (fault) {
      this.endLine();
      throw fault;
    }
  }

  /**
   * Writes so many marks of each of these octets.
   * @param {Uint8Array} octets
   * @param {number} count
   */
  put(octets, count) {
    const text = new Uint8Array(octets.length * count + Math.ceil((octets.length * count) / LINE) + 1);
    let at = 0;
    for (const octet of octets) {
      const marks = this.marks[octet];
      for (let mark = 0; mark < count; mark++) text[at++] = marks[mark];
      this.column += count;
      if (this.column < LINE) continue;
      text[at++] = LINE_END;
      this.column = 0;
    }
    this.write(text.subarray(0, at));
  }

  endLine() {
    if (this.column > 0) this.write(Uint8Array.of(LINE_END));
    this.column = 0;
  }

  end() {
    this.endLine();
    this.reader.end();
  }
}
