import { hexOf } from "../listing/listing.js";
import { positive, run, wordsOf, write } from "../system/command.js";
import { rowsOfInput } from "../system/input.js";

/** The octets that are written at a time. */
const SIZE = 1 << 16;

/** Text of ASCII that is gathered and then written. */
class Writer {
  room = Buffer.alloc(SIZE);
  length = 0;

  /** @param {string} text */
  text(text) {
    if (this.length + text.length > SIZE) this.flush();
    if (text.length > SIZE) write(Buffer.from(text, "latin1"));
    else this.length += this.room.write(text, this.length, "latin1");
  }

  /** Puts down a whole number digit by digit: the engine keeps texts of numbers, and would need more memory. */
  number(/** @type {number} */ value) {
    let count = 1;
    for (let power = 10; power <= value; power *= 10) count += 1;
    if (this.length + count > SIZE) this.flush();
    for (let at = this.length + count - 1; at >= this.length; at--) {
      this.room[at] = 48 + (value % 10);
      value = Math.floor(value / 10);
    }
    this.length += count;
  }

  /** @param {string} key @param {number|null} value */
  key(key, value) {
    if (value === null) return;
    this.text(key);
    this.number(value);
  }

  flush() {
    write(this.room.subarray(0, this.length));
    this.length = 0;
  }
}

/**
 * A number with so many decimals at most.
 * @param {number} value
 * @param {number} decimals
 */
const rounded = (value, decimals) => value.toFixed(decimals).replace(/\.?0+$/, "");

/** @param {Writer} writer @param {import("../listing/listing.js").Row} row @param {number} rate or 0 */
function putLine(writer, { line, first, past, kind, octets, station, type, name, cause, replyBits }, rate) {
  writer.text("{");
  if (line !== null) writer.text(`"line": ${line}, `);
  writer.key('"first": ', first);
  writer.key(', "past": ', past);
  writer.text(`, "kind": "${kind}"`);
  if (octets !== null) writer.text(`, "octets": "${hexOf(octets)}"`);
  writer.key(', "station": ', station);
  writer.key(', "type": ', type);
  if (name !== "") writer.text(`, "name": ${JSON.stringify(name)}`);
  if (cause !== "") writer.text(`, "cause": "${cause}"`);
  writer.key(', "reply_bits": ', replyBits);
  if (rate > 0) writer.text(`, "time": ${rounded(first / rate, 9)}`);
  if (rate > 0 && replyBits !== null) writer.text(`, "reply_ms": ${rounded((replyBits * 1000) / rate, 6)}`);
  writer.text("}\n");
}

run(async () => {
  const { rate = 0 } = wordsOf({ rate: positive }).values;
  const writer = new Writer();
  for await (const rows of rowsOfInput()) {
    for (const row of rows) putLine(writer, row, rate);
    writer.flush();
  }
});
