import { fstatSync, readFileSync, readSync } from "node:fs";
import { Readable } from "node:stream";
import { createInflateRaw } from "node:zlib";
import { ReadPart } from "../octets.js";
import { plainText } from "../text.js";

/**
 * The text of a file, plain.
 * @param {string} path
 */
export const textIn = (path) => plainText(readFileSync(path), path);

/**
 * An open file, read as a Blob is.
 * @param {number} file
 */
export const openPart = (file) =>
  new ReadPart(
    (from, past) => {
      const octets = new Uint8Array(past - from);
      readSync(file, octets, 0, octets.length, from);
      return octets.buffer;
    },
    0,
    fstatSync(file).size,
  );

/**
 * Unpacks a stream: before Node 20 its `DecompressionStream` cannot.
 * @param {ReadableStream<Uint8Array>} stream
 */
export const inflated = (stream) => Readable.toWeb(Readable.fromWeb(stream).pipe(createInflateRaw()));
