import { Fault } from "../../../scripts/modules/fault.js";
import { octetsOf, ReadPart } from "../../../scripts/modules/octets.js";
import { linked } from "./rpc.js";

/** @typedef {import("./desk.js").FarDesk} FarDesk */
/** @typedef {import("../../../scripts/modules/octets.js").Part} Part */

/**
 * Files that the page lends to the worker, which asks for their octets: in WebKit, a worker of a page from a disk reads
 * no file.
 *
 * @typedef {{ number: number, size: number }} Lent a file by its number, and how many octets it has
 */

/**
 * What the worker asks of the page.
 * @typedef {object} Near
 * @property {(number: number, from: number, past: number) => Promise<ArrayBuffer>} read some octets of a file
 * @property {(progress: number) => Promise<void>} hear which share of a file was read
 */

/**
 * The desks, as the page has them: that of the file that is shown, and while a file is read another one.
 * @typedef {Omit<FarDesk, "load"> & { load: Load, stop: () => void }} Desks
 * @typedef {(job: import("./desk.js").Job) => Promise<import("./summary.js").Summary|null>} Load null where another file
 *   is read instead, or reading was stopped
 */

/**
 * The desk of the file that is shown, to which files are lent. Each file is read at a desk of its own, which takes the
 * place of the one before once it is read: reading can be stopped at any time, and what is shown stays.
 * @param {() => Worker} begin a worker with a desk
 * @param {(progress: number) => void} hear
 * @returns {Desks}
 */
export function deskIn(begin, hear) {
  /** @type {Part[]} */
  const files = [];
  /** @param {number} number @param {number} from @param {number} past */
  const read = async (number, from, past) => (await octetsOf(files[number].slice(from, past))).buffer;
  /** @param {Part} file @returns {Lent} */
  const lend = (file) => ({ number: files.includes(file) ? files.indexOf(file) : files.push(file) - 1, size: file.size });
  const made = () => {
    const worker = begin();
    /** @type {import("./rpc.js").Port} */
    const port = worker;
    return { worker, far: /** @type {Record<string, (...words: unknown[]) => any>} */ (linked(port, { hear, read })) };
  };
  let shown = made();
  let stop = () => {};
  /** @type {Load} */
  const load = async (job) => {
    stop();
    const next = made();
    const stopped = new Promise((resolve) => (stop = () => resolve(null)));
    let done = next; // what is not wanted any more
    try {
      const summary = await Promise.race([next.far.load({ ...job, file: lend(job.file) }), stopped]);
      if (summary !== null) [shown, done] = [next, shown];
      return summary;
    } finally {
      done.worker.terminate();
    }
  };
  const own = { load, stop: () => stop(), lookAt: (/** @type {Part} */ file) => shown.far.lookAt(lend(file)) };
  const asks = (/** @type {string} */ name) => (/** @type {unknown[]} */ ...words) => shown.far[name](...words);
  return /** @type {any} */ (new Proxy(own, { get: (_, name) => Reflect.get(own, name) ?? asks(String(name)) }));
}

/**
 * A file that was lent, read as a Blob is.
 * @param {Lent} lent
 * @param {Near["read"]} read
 */
export function borrowed({ number, size }, read) {
  const refuse = (/** @type {Error} */ { message }) => Promise.reject(new Fault(message));
  return new ReadPart((from, past) => read(number, from, past).catch(refuse), 0, size);
}
