import { existsSync, readFileSync, statSync } from "node:fs";
import { basename } from "node:path";
import { Readable } from "node:stream";
import { createGzip } from "node:zlib";
import { Fault } from "../fault.js";
import { asHtml } from "../limits/forms.js";
import { ListingReader } from "../listing/read.js";
import { RATE } from "../port1.js";
import { DayTime } from "../statistics/day-time.js";
import { positive, run, wordsOf, writeText } from "../system/command.js";
import { dateOf, sha256Of } from "../system/facts.js";
import { textIn } from "../system/file.js";
import { standardInput } from "../system/input.js";
import { PAGES, page as builtPage } from "../system/program.js";
import { plainPieces } from "../text.js";

/** The decoders of a page, for 64-bit and for 32-bit memory. */
const ENGINE = /<script type="application\/wasm\+base64" id="engine">.*?id="engine-32">.*?<\/script>/s;

const ABOUT = /(?<=<script type="application\/json" id="about">).*?(?=<\/script>)/s;

/** How each note begins. */
const PREFIX = /^(?:recording|vcd)-to-bits: /;

/** @param {string} file */
function pageOf(file) {
  if (!existsSync(file)) throw new Fault(`there is no page ${file}: \`make page\` builds it; --page says where it is`);
  return readFileSync(file, "utf8");
}

/**
 * What stands in the report before the listing, and after it.
 * @param {string} page
 * @param {{ title: string }} more
 */
function partsOf(page, more) {
  const known = ABOUT.exec(page);
  if (!ENGINE.test(page) || known === null) throw new Fault("this is no page that `make page` built");
  const about = JSON.stringify({ ...JSON.parse(known[0]), ...more }).replaceAll("<", "\\u003c");
  const [before, after] = page.replace(ABOUT, () => about).split(ENGINE);
  const titled = before.replace(/<title>.*?<\/title>/, () => `<title>${asHtml(more.title)}</title>`);
  return [`${titled}<script type="application/gzip+base64" id="listing-data">`, `</script>${after}`];
}

/**
 * What the report has of the recording's file.
 * @param {string} recording
 */
function factsOf(recording) {
  const sha256 = sha256Of(recording);
  const { mtime, size } = statSync(recording);
  return { name: basename(recording), date: dateOf(mtime), size: String(size), sha256 };
}

/** @param {string} notes */
const notesOf = (notes) =>
  readFileSync(notes, "utf8").split(/\r?\n/).filter((line) => line !== "").map((line) => line.replace(PREFIX, ""));

/** The pieces of standard input, each of which has been read as lines of a listing. */
async function* checked() {
  const reader = new ListingReader();
  for await (const piece of plainPieces(standardInput())) {
    reader.take(piece);
    reader.forget();
    yield Buffer.from(piece);
  }
  reader.end();
}

/** @param {AsyncIterable<Buffer>} pieces */
async function writeAsBase64(pieces) {
  let rest = Buffer.alloc(0);
  for await (const piece of pieces) {
    const octets = Buffer.concat([rest, piece]);
    const whole = octets.length - (octets.length % 3);
    writeText(octets.toString("base64", 0, whole));
    rest = octets.subarray(whole);
  }
  writeText(rest.toString("base64"));
}

/**
 * The pieces as gzip.
 * @param {AsyncIterable<Buffer>} pieces
 */
function packed(pieces) {
  const [source, gzip] = [Readable.from(pieces), createGzip()];
  source.on("error", (fault) => gzip.destroy(fault));
  return source.pipe(gzip);
}

/**
 * A time that can be read.
 * @param {string} text
 */
const timeOf = (text) => new DayTime(text) && text;

const OPTIONS = {
  ...{ rate: positive, begin: timeOf, dictionary: String, command: String, recording: String, notes: String },
};

run(async () => {
  const { values, words: [title] } = wordsOf({ ...OPTIONS, bits: positive, page: String }, ["TITLE"]);
  const { rate = RATE, begin, command = "", recording, notes, bits } = values;
  const dictionary = values.dictionary ? textIn(values.dictionary) : "";
  const page = pageOf(values.page ?? builtPage() ?? PAGES[0]);
  const [before, after] = partsOf(page, {
    ...{ title, rate, dictionary, command },
    ...(recording && { recording: factsOf(recording) }),
    ...(bits && { bits }),
    ...(begin && { begin }),
    ...(notes && { notes: notesOf(notes) }),
  });
  writeText(before);
  await writeAsBase64(packed(checked()));
  writeText(after);
});
