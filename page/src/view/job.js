/** @typedef {import("../engine/library.js").Engine} Engine */
/** @typedef {ReturnType<typeof import("../worker/forms.js").formOf>} Told of a file by its first octets */
/** @typedef {NonNullable<Told["kind"]>} CaptureKind */
/** @typedef {Told & { form: Exclude<Told["form"], "dictionary"|"other"> }} Chosen how a file is read */

/**
 * What the worker is asked to read.
 * @typedef {object} Asked
 * @property {File} file
 * @property {Chosen["form"]} form
 * @property {CaptureKind} kind of a capture
 * @property {string[]} channels of a recording
 * @property {boolean} rising whether bits are taken at rising edges
 * @property {number} inverted which lines' data is: 1, 2, or 3 for both
 * @property {number} rest after how many bits of the first line without one of the second this is brought to rest
 * @property {number} rate in bits a second
 * @property {string} dictionary its text, or nothing
 * @property {import("../worker/desk.js").Begin|null} begin when place 0 was, where that is known
 * @property {Engine|null} engine
 */

/**
 * The same of the listing in a report, with the warnings that the report was told.
 * @typedef {Pick<Asked, "rate"|"dictionary"|"begin"|"engine"> & { file: Blob, form: "listing", told: string[],
 *   end?: number }} Embedded
 */

/**
 * What is chosen under Form, as the worker takes it.
 * @type {Record<string, Chosen>}
 */
export const FORMS = {
  text1: { form: "text", kind: 1 },
  text2: { form: "text", kind: 2 },
  text3: { form: "text", kind: "arrivals" },
  packed1: { form: "packed", kind: 1 },
  packed2: { form: "packed", kind: 2 },
  packed3: { form: "packed", kind: "arrivals" },
  vcd: { form: "vcd" },
  csv: { form: "csv" },
  session: { form: "session" },
  listing: { form: "listing" },
};
