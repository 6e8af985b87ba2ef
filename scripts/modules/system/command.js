/**
 * How the commands read their words, and how they end.
 *
 * Help goes to standard output, with status 0. Of a wrong call, usage and reason go to standard error, with status 2.
 * Whatever else keeps a command from its work is one line on standard error, with status 2; where whoever read the
 * output has gone, as `head` does, nothing is said. Signals are those of signals.js.
 */

import { readFileSync, writeSync } from "node:fs";
import { basename } from "node:path";
import { parseArgs } from "node:util";
import { Fault } from "../fault.js";
import { catchSignals, endedBy, endBySignal } from "./signals.js";

/** What the command is called. */
export const name = basename(process.argv[1], ".js");

/** A wrong call. */
class Misuse extends Error {}

/**
 * Writes all of some octets, also to a pipe that does not block. Once a signal has ended the input, whoever read the
 * output may have been ended too, and what is left to be said is said all the same.
 * @param {Uint8Array} octets
 */
export function write(octets, to = 1) {
  for (let at = 0; at < octets.length; ) {
    try {
      at += writeSync(to, octets, at);
    } catch (error) {
      if (isOfSystem(error, "EPIPE") && endedBy()) return;
      if (!isOfSystem(error, "EAGAIN")) throw error;
      Atomics.wait(new Int32Array(new SharedArrayBuffer(4)), 0, 0, 1);
    }
  }
}

/** @param {string} text */
export const writeText = (text) => write(Buffer.from(text));

/**
 * Writes a line on standard error.
 * @param {string} text
 */
export const warn = (text) => write(Buffer.from(`${name}: ${text}\n`), 2);

/**
 * Whether an error comes from the system, with this code if one is given.
 * @param {unknown} error
 * @param {string} [wanted]
 */
export function isOfSystem(error, wanted) {
  const { code } = /** @type {{ code?: string }} */ (error);
  return code !== undefined && code === (wanted ?? code);
}

/** The text that --help writes: it begins with the usage, which ends with an empty line. */
function help() {
  const text = readFileSync(new URL(`../commands/${name}.txt`, import.meta.url), "utf8");
  return text.replace(/^usage: \S+/, `usage: ${name}`);
}

/**
 * A wrong call, and why.
 * @param {string} text
 */
export const misuse = (text) => new Misuse(`${help().split("\n\n")[0]}\n${name}: error: ${text}\n`);

/**
 * An option: what reads its value, or `true` where it takes none.
 * @typedef {((text: string) => unknown)|true} Option
 */

/**
 * What the options of a call say, those that were given.
 * @template {Record<string, Option>} Options
 * @typedef {{ [Name in keyof Options]?: Options[Name] extends (text: string) => infer Value ? Value : boolean }} Values
 */

/**
 * The words of a call: the values of its options by name, and its other words, of which there are so many.
 * @template {Record<string, Option>} Options
 * @param {Options} [options]
 * @param {string[]} [words] what each of the other words is
 * @param {number} [most] how many of them there may be
 * @returns {{ values: Values<Options>, words: string[] }}
 */
export function wordsOf(options = /** @type {Options} */ ({}), words = [], most = words.length, args = process.argv.slice(2)) {
  const typed = Object.entries(options).map(([key, read]) => [key, { type: read === true ? "boolean" : "string" }]);
  const config = { args, options: { ...Object.fromEntries(typed), help: { type: "boolean", short: "h" } } };
  const found = parsed(config);
  if (found.values.help) {
    writeText(help());
    process.exit(0);
  }
  const others = found.positionals;
  if (others.length < words.length) throw misuse(`there is no ${words[others.length]}`);
  if (others.length > most) throw misuse(`${others[most]} is one word too many`);
  const values = Object.entries(found.values).map(([key, value]) => {
    const read = options[key];
    return [key, read === true ? value : wordOf(`--${key}`, value, read)];
  });
  return { values: Object.fromEntries(values), words: others };
}

/** @param {{ args: string[], options: Record<string, { type: string, short?: string }> }} config */
function parsed(config) {
  try {
    return parseArgs({ ...config, allowPositionals: true });
  } catch (error) {
    throw misuse(/** @type {Error} */ (error).message.replaceAll("\n", " "));
  }
}

/**
 * What one of the other words says.
 * @template T
 * @param {string} what
 * @param {string} text
 * @param {(text: string) => T} read
 */
export function wordOf(what, text, read) {
  try {
    return read(text);
  } catch (fault) {
    throw fault instanceof Fault ? misuse(`${what}: ${fault.message}`) : fault;
  }
}

/**
 * A whole number above 0, for an option.
 * @param {string} text
 */
export function positive(text) {
  if (!/^[0-9]*[1-9][0-9]*$/.test(text)) throw new Fault(`${JSON.stringify(text)} is no whole number above 0`);
  return Number(text);
}

/**
 * A whole number, for an option.
 * @param {string} text
 */
export function whole(text) {
  if (!/^[0-9]+$/.test(text)) throw new Fault(`${JSON.stringify(text)} is no whole number`);
  return Number(text);
}

/**
 * Says on standard error what keeps a command from its work.
 * @param {unknown} error
 */
function tell(error) {
  if (error instanceof Misuse) write(Buffer.from(error.message), 2);
  else if (error instanceof Fault || isOfSystem(error)) warn(/** @type {Error} */ (error).message);
  else throw error;
}

/**
 * Runs a command, and ends with its status.
 * @param {() => Promise<number|void>|number|void} main
 */
export async function run(main) {
  catchSignals();
  try {
    process.exitCode = (await main()) ?? 0;
  } catch (error) {
    if (!isOfSystem(error, "EPIPE")) tell(error);
    process.exit(2);
  }
  if (endedBy()) endBySignal();
}
