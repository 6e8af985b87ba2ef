import { spawn } from "node:child_process";
import { once } from "node:events";
import { createInterface } from "node:readline";
import { Fault } from "../fault.js";
import { LAST_FACT, factsIn } from "../recording/facts.js";
import { programNamed } from "./program.js";

/** @typedef {import("../recording/doubts.js").Facts} Facts */

/**
 * The last facts that a child tells, and what else it says.
 * @param {import("node:stream").Readable} stream
 * @param {(facts: Facts) => void} [look] hears facts as they come
 */
async function toldOf(stream, look) {
  /** @type {Facts|undefined} */
  let facts;
  /** @type {string[]} */
  const lines = [];
  for await (const line of createInterface({ input: stream })) {
    lines.push(line);
    if (!line.startsWith(`${LAST_FACT} `)) continue;
    facts = factsIn(lines.splice(0));
    look?.(facts);
  }
  return { facts, said: lines.join("\n") };
}

/**
 * Hands pieces to a child, each before the next one is read, until it ends.
 * @param {import("node:child_process").Child} child
 * @param {AsyncIterable<Uint8Array>} pieces
 */
async function feed(child, pieces) {
  let isOpen = true;
  child.stdin.on("error", () => (isOpen = false));
  try {
    for await (const piece of pieces) {
      if (!isOpen) break;
      await new Promise((done) => child.stdin.write(piece, done));
    }
  } finally {
    child.stdin.end();
  }
}

/**
 * The words for a recording.
 * @param {import("../recording/recording.js").Recording} recording
 * @param {string[]} options
 */
const wordsOf = ({ hasRuns, width, wires }, options) =>
  ["--facts", ...options, ...(hasRuns ? ["--runs"] : [`--octets=${width}`]), ...wires.map(String)];

/**
 * What is known of a recording at its end: what the sampler counted, and the fault that ended it, if any.
 * @typedef {{ facts: Facts, fault: unknown }} Ending
 */

/**
 * The bits of a recording in the order of arrival, as text: the program port1-sample takes them.
 * @param {import("../recording/recording.js").Recording} recording
 * @param {string[]} options
 * @param {(facts: Facts) => void} [look] hears what was counted so far, while the recording comes
 * @returns {AsyncGenerator<Uint8Array, Ending>}
 */
export async function* sampled(recording, options, look) {
  const program = programNamed("port1-sample");
  // A session of its own, so that Ctrl-C ends the input and not the program.
  const words = wordsOf(recording, look ? ["--live", ...options] : options);
  const child = spawn(program, words, { stdio: ["pipe", "pipe", "pipe"], detached: true });
  const [ended, told] = [once(child, "close"), toldOf(child.stderr, look)];
  told.catch(() => undefined); // It is awaited at the end.
  /** @type {unknown} */
  let fault = null;
  const fed = feed(child, recording.pieces).catch((error) => (fault = error));
  for await (const chunk of child.stdout) yield chunk;
  await fed;
  const [[status, signal], { facts, said }] = await Promise.all([ended, told]);
  if (status !== 0 || facts === undefined) {
    throw new Fault(`${program} ended with ${signal ?? `status ${status}`}: ${said}`);
  }
  return { facts, fault };
}
