/**
 * Lists files as the page does, without a browser.
 *
 *     node --experimental-wasm-memory64 page/tests/list.js MODULE 64|32 < JOBS > RESULTS
 *
 * MODULE is the decoder, with 64-bit or with 32-bit memory. JOBS is an array of JSON: of each file its path, its form, the kind of capture, the text
 * of a dictionary, and of a recording its channels and edges. RESULTS are the texts, notes and faults, in that order.
 */
import { openAsBlob, readFileSync, writeFileSync } from "node:fs";
import { readDictionary } from "../../scripts/modules/dictionary/dictionary.js";
import { Fault } from "../../scripts/modules/fault.js";
import { formOf, HEAD } from "../src/worker/forms.js";
import { read } from "../src/worker/source.js";

async function resultOf(engine, job) {
  const file = await openAsBlob(job.file);
  const found = formOf(new Uint8Array(await file.slice(0, HEAD).arrayBuffer()));
  try {
    const entries = job.dictionary ? readDictionary(job.dictionary) : null;
    const { listing, fault, notes } = await read({ ...found, ...job, file, entries, engine }, () => {});
    return { found, text: listing.textOf(0, listing.length), fault, notes };
  } catch (fault) {
    if (!(fault instanceof Fault)) throw fault;
    return { found, text: "", fault: fault.message, notes: [] };
  }
}

const engine = { module: readFileSync(process.argv[2]), isWide: process.argv[3] === "64" };
const results = [];
for (const job of JSON.parse(readFileSync(0, "utf-8"))) results.push(await resultOf(engine, job));
writeFileSync(1, JSON.stringify(results));
