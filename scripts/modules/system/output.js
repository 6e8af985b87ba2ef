/**
 * Files that a command writes by the names it is given.
 *
 * A regular file has all of it in the end, or stays as it was: it is written beside its place and renamed, and keeps
 * its mode. What is none, as a device, a pipe or a terminal, is written through, and a link stays a link.
 */

import { chmodSync, closeSync, constants, openSync, readlinkSync, realpathSync, renameSync, rmSync, statSync } from "node:fs";
import { basename, dirname, join, resolve } from "node:path";
import { setTimeout as delay } from "node:timers/promises";
import { isOfSystem, write } from "./command.js";

/** @typedef {import("node:fs").Stats} Stats */

/** How often it looks whether a pipe has a reader, in milliseconds. */
const LOOKS = 20;

/** The bits of a mode that a file keeps. */
const MODE = 0o7777;

/** Where names of open files and devices lie. */
const OF_SYSTEM = /^\/(dev|proc)\//;

/**
 * What a call gives, or nothing where there is no such file.
 * @template T
 * @param {() => T} call
 * @returns {T|null}
 */
function ifThere(call) {
  try {
    return call();
  } catch (error) {
    if (isOfSystem(error, "ENOENT") || isOfSystem(error, "EINVAL")) return null;
    throw error;
  }
}

/**
 * The path of a file, also where a link leads to one that is not there yet.
 * @param {string} name
 * @returns {string}
 */
function placeOf(name) {
  const place = ifThere(() => realpathSync(name));
  if (place !== null) return place;
  const next = ifThere(() => readlinkSync(name));
  return next === null ? name : placeOf(resolve(dirname(name), next));
}

/**
 * Opens what is no regular file. A pipe is opened once it has a reader.
 * @param {string} name
 * @param {Stats} stats
 */
async function opened(name, stats) {
  for (;;) {
    try {
      return openSync(name, constants.O_WRONLY | constants.O_NONBLOCK);
    } catch (error) {
      if (!stats.isFIFO() || !isOfSystem(error, "ENXIO")) throw error;
      await delay(LOOKS);
    }
  }
}

/**
 * Writes a file: `fill` gets it open.
 * @param {string} name
 * @param {(sink: number) => Promise<void>|void} fill
 */
export async function writeFile(name, fill) {
  const stats = ifThere(() => statSync(name));
  if (stats !== null && (!stats.isFile() || OF_SYSTEM.test(name))) {
    const sink = await opened(name, stats);
    await fill(sink);
    return closeSync(sink);
  }
  const place = placeOf(name);
  const part = join(dirname(place), `.${basename(place)}.${process.pid}.part`);
  process.once("exit", () => rmSync(part, { force: true }));
  const sink = openSync(part, "wx");
  if (stats !== null) chmodSync(part, stats.mode & MODE);
  await fill(sink);
  closeSync(sink);
  renameSync(part, place);
}

/**
 * Writes a file that is this text.
 * @param {string} name
 * @param {string} text
 */
export const writeTextFile = (name, text) => writeFile(name, (sink) => write(Buffer.from(text), sink));
