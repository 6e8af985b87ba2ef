import { Fault } from "../fault.js";
import { plainHead } from "../text.js";
import { headWithCommas, isTable } from "./cells.js";
import { TableHead } from "./csv-head.js";
import { otherForm } from "./others.js";
import { namesOf, signalsOf } from "./signals.js";
import { Words, characters } from "./words.js";

/** The forms of recordings: sessions of sigrok, samples without a head, value change dumps, and tables. */
export const FORMS = /** @type {const} */ (["session", "binary", "vcd", "csv"]);

/** @typedef {Exclude<typeof FORMS[number], "binary">} Form one that is told by its head */

/**
 * Whether a file is one, by its form.
 * @param {string} form
 */
export const isRecording = (form) => FORMS.some((each) => each === form && each !== "binary");

/** What may stand before the first word of a recording. */
const BEFORE_TEXT = Uint8Array.from([0xef, 0xbb, 0xbf, 9, 10, 13, 32]);

const [LINE_END, DOLLAR] = [10, 36];

/** How a line begins that sigrok-cli may write before a recording. */
const META = Uint8Array.from([77, 69, 84, 65, 32]);

/**
 * Of which form a recording is.
 * @param {Uint8Array} octets its first 4096
 * @returns {Form|null} none where these octets are of neither form
 */
export function formOfText(octets) {
  const head = plainHead(octets);
  const start = META.every((octet, at) => head[at] === octet) ? head.indexOf(LINE_END) + 1 : 0;
  const first = head.subarray(start).find((octet) => !BEFORE_TEXT.includes(octet));
  if (first === DOLLAR) return "vcd";
  const isText = head.length > 0 && head.every((octet) => (octet >= 32 ? octet !== 127 : octet === 9 || octet === 10 || octet === 13));
  return isText && isTable(head) ? "csv" : null;
}

/** How an archive begins (PKWARE's APPNOTE.TXT, 4.3). */
const ARCHIVE = Uint8Array.from([80, 75, 3, 4]);

/** An archive whose first files are those of a session of sigrok, or of which no more has come. */
export const SESSION = /^PK\x03\x04([^]{26}(version|metadata)|[^]{0,30}$)/;

/** Words and blanks in what is printed: so samples do not begin, whose higher bits hardly change. */
const PRINTED = /^(?=[^]*[A-Za-z]{3})(?=[^]*[ \n])[\t\r\n -~]{16,}$/;

/**
 * Of which form a recording is, which may be samples.
 * @param {Uint8Array} head its first 4096 octets
 * @returns {Form|"binary"}
 */
export function formOfRecording(head) {
  if (head.length === 0) throw new Fault("the recording is empty");
  const [form, text] = [formOfText(head), characters(head)];
  if (SESSION.test(text)) return "session";
  const other = form === null || ARCHIVE.every((octet, at) => head[at] === octet) ? otherForm(text) : null;
  if (other !== null) throw new Fault(`this is ${other}`);
  if (form === null && PRINTED.test(text)) {
    throw new Fault("this is text, and neither a VCD nor a table (CSV); if it is samples, say --format binary");
  }
  return form ?? "binary";
}

/**
 * The channels of a recording by which they are taken: their names, or the numbers of columns that share a name.
 * @param {Uint8Array} octets its first ones, as many as its definitions or the lines before its samples take
 * @param {Form} form
 * @returns {string[]}
 */
export function channelsOf(octets, form) {
  const head = plainHead(octets);
  if (form === "vcd") return [...new Set(namesOf(signalsOf(new Words(head, head.length))))];
  const names = namesOfTable(headWithCommas(head));
  const shared = sharedNames(names);
  const all = new Set(names);
  return names.map((name, at) => (shared.has(name) && !all.has(String(at)) ? String(at) : name));
}

/**
 * The names that more than one column has.
 * @param {string[]} names
 */
function sharedNames(names) {
  /** @type {Set<string>} */
  const known = new Set();
  /** @type {Set<string>} */
  const shared = new Set();
  for (const name of names) {
    (known.has(name) ? shared : known).add(name);
  }
  return shared;
}

/** @param {Uint8Array} octets */
function namesOfTable(octets) {
  const head = new TableHead();
  let begin = 0;
  for (let end = octets.indexOf(10); end >= 0; end = octets.indexOf(10, begin)) {
    if (head.ends(octets.subarray(begin, end))) break;
    begin = end + 1;
  }
  return head.table().names;
}
