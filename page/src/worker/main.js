import { Desk } from "./desk.js";
import { borrowed } from "./lent.js";
import { linked } from "./rpc.js";

/** @typedef {import("./desk.js").Job} Job */
/** @typedef {import("./lent.js").Lent} Lent */

const NAMES = /** @type {const} */ ([
  ...["lookAt", "load", "summaryText", "check", "draft", "timeline", "structures", "bitsBetween", "choose", "lines"],
  ...["positionOf", "placesOf", "rowFrom", "placeOfCause", "texts"],
]);

/** @typedef {(typeof NAMES)[number]} Task what the page asks by name */

const desk = new Desk((progress) => void page.hear(progress));

const port = /** @type {import("./rpc.js").Port} */ (/** @type {unknown} */ (self));

/** @type {import("./lent.js").Near} */
const page = linked(port, {
  ...Object.fromEntries(NAMES.map((name) => [name, desk[name].bind(desk)])),
  lookAt: (/** @type {Lent} */ file) => desk.lookAt(borrowed(file, page.read)),
  load: (/** @type {Omit<Job, "file"> & { file: Lent }} */ job) =>
    desk.load(/** @type {Job} */ ({ ...job, file: borrowed(job.file, page.read) })),
});
