import { FORMS } from "../../../scripts/modules/capture/forms.js";
import { isListing } from "../../../scripts/modules/listing/read.js";
import { SESSION, formOfText } from "../../../scripts/modules/recording/forms.js";
import { otherForm } from "../../../scripts/modules/recording/others.js";
import { characters } from "../../../scripts/modules/recording/words.js";
import { plainHead } from "../../../scripts/modules/text.js";

/** @typedef {import("../../../scripts/modules/capture/forms.js").Kind} Kind */

/**
 * What a file is: its form, the kind of a capture, and why one of another form cannot be read.
 * @typedef {object} Found
 * @property {"packed"|"text"|"listing"|"dictionary"|"other"|import("../../../scripts/modules/recording/forms.js").Form} form
 * @property {Kind} [kind]
 * @property {string} [why]
 */

/** How many octets of a file tell its form. */
export const HEAD = 65536;

/** @type {Kind[]} */
const KINDS = [1, 2, "arrivals"];

/** The marks of a text that is a capture, and the beginning of one that is read up to what is no bit. */
const [PAIRS, ARRIVALS] = [FORMS[2].marks, FORMS.arrivals.marks];
const MARKS = new RegExp(`^([\\s${PAIRS}]*|[\\s${ARRIVALS}]*)$`);
const BEGINNING = new RegExp(`^\\s*([${PAIRS}]{8}|[${ARRIVALS}]{8})[\\s${PAIRS}${ARRIVALS}]*`);

/**
 * The kind of a text, by its marks.
 * @param {string} text
 */
const kindOf = (text) => (/[oi]/.test(text) ? "arrivals" : /[23]/.test(text) ? 2 : 1);
const DICTIONARY = /^[ \t]*(version[ \t]*=|\[\[[ \t]*frame[ \t]*\]\])/m;

const TEXT = "text, but no capture: one of those has 0 and 1 alone, or 0 to 3, or 0, 1, o and i for two lines.";
const BINARY =
  "binary, and begins as no capture does. Samples without a head, as `sigrok-cli -O binary` writes them, say neither " +
  "their rate nor their channels: save a session (.sr) or VCD.";

/**
 * What a file is that cannot be read.
 * @param {string} text
 */
function whyNot(text) {
  return otherForm(text) ?? (/^[\t\r\n\x20-\x7e\x80-\xff]*$/.test(text) ? TEXT : BINARY);
}

/**
 * What a file is, by its first octets.
 * @param {Uint8Array} head
 * @returns {Found}
 */
export function formOf(head) {
  if (head.length === 0) return { form: "other", why: "empty: it has no octet." };
  const magic = characters(head.subarray(0, 8));
  const kind = KINDS.find((each) => FORMS[each].magic === magic);
  if (kind) return { form: "packed", kind };
  if (SESSION.test(characters(head))) return { form: "session" };
  const text = characters(plainHead(head));
  if (isListing(head)) return { form: "listing" };
  if (MARKS.test(text)) return { form: "text", kind: kindOf(text) };
  if (DICTIONARY.test(text)) return { form: "dictionary" };
  const recording = formOfText(head);
  if (recording) return { form: recording };
  const [marks] = BEGINNING.exec(text) ?? [];
  if (marks) return { form: "text", kind: kindOf(marks) };
  return { form: "other", why: whyNot(text) };
}
