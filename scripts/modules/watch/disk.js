import { closeSync, fsync, mkdirSync, openSync, readdirSync } from "node:fs";
import { renameSync, rmSync, truncateSync, writeSync } from "node:fs";
import { dirname, join } from "node:path";
import { promisify } from "node:util";

const flushed = promisify(fsync);

/**
 * How a watch writes its files. A card may take seconds to flush something, and bits come meanwhile: so nothing waits
 * for it but what is to be done in its turn. A file is flushed before its name is, and its name before what refers to
 * it.
 */
export class Disk {
  /** Until all that is to be done in its turn is done. */
  idle = Promise.resolve();

  /**
   * Does something once all that was to be done before is.
   * @param {() => Promise<void>|void} act
   * @param {(fault: Error) => void} tell hears why it cannot be done
   */
  later(act, tell) {
    this.idle = this.idle.then(act).catch(tell);
  }

  /** @param {string} path @param {string} flags */
  open(path, flags) {
    return openSync(path, flags);
  }

  /** @param {number} file @param {Uint8Array} octets @param {number} at */
  write(file, octets, at) {
    return writeSync(file, octets, at);
  }

  /** @param {number} file @returns {Promise<void>} */
  sync(file) {
    return flushed(file);
  }

  /** @param {number} file */
  close(file) {
    closeSync(file);
  }

  /** @param {string} path */
  async syncFolder(path) {
    const file = openSync(path, "r");
    try {
      await flushed(file);
    } finally {
      closeSync(file);
    }
  }

  /** @param {string} from @param {string} to */
  rename(from, to) {
    renameSync(from, to);
  }

  /** @param {string} path */
  remove(path) {
    rmSync(path, { recursive: true, force: true });
  }

  /** @param {string} path @param {number} size */
  truncate(path, size) {
    truncateSync(path, size);
  }

  /** @param {string} path */
  makeFolder(path) {
    mkdirSync(path, { recursive: true });
  }

  /**
   * Writes all of some octets.
   * @param {number} file
   * @param {Uint8Array} octets
   * @param {(count: number) => void} [written] hears how many were
   */
  writeAll(file, octets, written = () => undefined) {
    for (let at = 0; at < octets.length; ) {
      const count = this.write(file, octets, at);
      written(count);
      at += count;
    }
  }

  /**
   * Opens a file, writes and flushes it.
   * @param {string} path
   * @param {string} flags
   * @param {Uint8Array} octets
   */
  async writeTo(path, flags, octets) {
    const file = this.open(path, flags);
    try {
      this.writeAll(file, octets);
      await this.sync(file);
    } finally {
      this.close(file);
    }
  }

  /**
   * Writes text behind what a file has, and flushes nothing.
   * @param {string} path
   * @param {string} text
   */
  append(path, text) {
    const file = this.open(path, "a");
    try {
      this.writeAll(file, Buffer.from(text));
    } finally {
      this.close(file);
    }
  }

  /**
   * Writes a file that is there whole, or as it was before.
   * @param {string} path
   * @param {string|Uint8Array} content
   */
  async put(path, content) {
    const fresh = `${path}.new`;
    await this.writeTo(fresh, "w", typeof content === "string" ? Buffer.from(content) : content);
    this.rename(fresh, path);
    await this.syncFolder(dirname(path));
  }

  /**
   * The same of what need not outlive a power cut.
   * @param {string} path
   * @param {string} text
   */
  replace(path, text) {
    const fresh = `${path}.new`;
    this.remove(fresh);
    this.append(fresh, text);
    this.rename(fresh, path);
  }

  /**
   * Gives a folder that others have written its name: it is there whole or not at all.
   * @param {string} fresh
   * @param {string} path
   */
  async putFolder(fresh, path) {
    for (const name of readdirSync(fresh)) await this.writeTo(join(fresh, name), "a", Buffer.alloc(0));
    await this.syncFolder(fresh);
    this.remove(path);
    this.rename(fresh, path);
    await this.syncFolder(dirname(path));
  }
}

/** The disk of this computer. */
export const DISK = new Disk();
