import { mkdtempSync, rmSync } from "node:fs";
import { tmpdir } from "node:os";
import { join } from "node:path";

import { DISK } from "../../watch/disk.js";

/**
 * What is made in a folder of its own, which goes when the disk has taken all.
 * @template T
 * @param {(folder: string) => T|Promise<T>} body
 * @returns {Promise<T>}
 */
export async function inFolder(body) {
  const folder = mkdtempSync(join(tmpdir(), "port1-"));
  try {
    return await body(folder);
  } finally {
    await DISK.idle;
    rmSync(folder, { recursive: true, force: true });
  }
}
