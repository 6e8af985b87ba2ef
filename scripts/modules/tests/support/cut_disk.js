// A disk that takes down what is done to it, and what a power cut leaves of that.

import { mkdirSync, truncateSync, writeFileSync } from "node:fs";
import { dirname, join, relative } from "node:path";

import { Disk } from "../../watch/disk.js";

/** A disk that does what it is told, and takes it down. */
export class TakenDown extends Disk {
  /** @type {any[]} */
  steps = [];
  paths = new Map();

  constructor(folder) {
    super();
    this.folder = folder;
  }

  note(step) {
    const paths = Object.entries(step).filter(([, value]) => typeof value === "string" && value.startsWith("/"));
    const own = paths.map(([name, path]) => [name, relative(this.folder, path)]);
    this.steps.push({ ...step, ...Object.fromEntries(own) });
  }

  open(path, flags) {
    const file = super.open(path, flags);
    this.paths.set(file, path);
    this.note({ kind: "open", path, flags });
    return file;
  }

  write(file, octets, at) {
    const count = super.write(file, octets, at);
    this.note({ kind: "write", path: this.paths.get(file), octets: Buffer.from(octets.subarray(at, at + count)) });
    return count;
  }

  async sync(file) {
    this.note({ kind: "sync", path: this.paths.get(file) });
    await this.waited();
  }

  async syncFolder(path) {
    this.note({ kind: "syncFolder", path });
    await this.waited();
  }

  /** What a flush waits for. */
  waited() {}

  rename(from, to) {
    super.rename(from, to);
    this.note({ kind: "rename", from, to });
  }

  remove(path) {
    super.remove(path);
    this.note({ kind: "remove", path });
  }

  truncate(path, size) {
    super.truncate(path, size);
    this.note({ kind: "truncate", path, size });
  }
}

/** A disk that flushes nothing. */
export class Quick extends Disk {
  async sync() {}

  async syncFolder() {}
}

/** A disk that takes down what is done to it, and flushes something only when it is let. */
export class Slow extends TakenDown {
  /** @type {(() => void)[]} */
  waiting = [];
  isLet = false;

  waited() {
    return this.isLet ? Promise.resolve() : new Promise((done) => this.waiting.push(() => done(undefined)));
  }

  /** Lets the first flush that waits be done. */
  async let() {
    this.waiting.shift()?.();
    await new Promise((done) => setTimeout(() => done(undefined), 0));
  }

  /** Lets all be done. */
  letAll() {
    this.isLet = true;
    this.waiting.splice(0).forEach((done) => done());
  }
}

const isIn = (path, folder) => folder === "" || path === folder || path.startsWith(`${folder}/`);

/** What stands on a disk after some steps: all of it, and what is left where nothing stayed that was not flushed. */
export class Left {
  names = new Map(); // files by path: their octets, and those that were flushed
  flushed = new Map(); // of names that were

  /** @param {Map<string, Buffer>} [files] that are there, flushed */
  constructor(files = new Map()) {
    this.names = new Map([...files].map(([path, octets]) => [path, { octets, flushed: octets }]));
    this.flushed = new Map(this.names);
  }

  open({ path, flags }) {
    const known = this.names.get(path);
    if (!known) this.names.set(path, { octets: Buffer.alloc(0), flushed: Buffer.alloc(0) });
    else if (flags === "w") known.octets = Buffer.alloc(0);
  }

  write({ path, octets }) {
    const file = this.names.get(path);
    file.octets = Buffer.concat([file.octets, octets]);
  }

  sync({ path }) {
    const file = this.names.get(path);
    if (file) file.flushed = file.octets; // it may be removed before its turn comes
  }

  truncate({ path, size }) {
    const file = this.names.get(path);
    if (file) file.octets = file.octets.subarray(0, size);
  }

  rename({ from, to }) {
    const moved = [...this.names].filter(([path]) => isIn(path, from));
    moved.forEach(([path]) => this.names.delete(path));
    moved.forEach(([path, file]) => this.names.set(to + path.slice(from.length), file));
  }

  remove({ path }) {
    [...this.names.keys()].filter((name) => isIn(name, path)).forEach((name) => this.names.delete(name));
  }

  syncFolder({ path }) {
    [...this.flushed.keys()].filter((name) => isIn(name, path)).forEach((name) => this.flushed.delete(name));
    [...this.names].filter(([name]) => isIn(name, path)).forEach(([name, file]) => this.flushed.set(name, file));
  }

  step(step) {
    this[step.kind](step);
  }

  /** The files where by chance some stayed that was not flushed: names, and octets up to any. */
  mixed(random) {
    const names = new Set([...this.names.keys(), ...this.flushed.keys()]);
    const files = [...names].map((name) => [name, (random.once(2) ? this.names : this.flushed).get(name)]);
    const lengthOf = ({ octets, flushed }) =>
      random.once(2) ? octets.length : random.between(Math.min(flushed.length, octets.length), octets.length);
    return new Map(files.flatMap(([name, file]) => (file ? [[name, file.octets.subarray(0, lengthOf(file))]] : [])));
  }

  /** The files, by name. @param {boolean} isFlushed whether only what was flushed stays */
  files(isFlushed) {
    const names = isFlushed ? this.flushed : this.names;
    return new Map([...names].map(([name, file]) => [name, isFlushed ? file.flushed : file.octets]));
  }
}

/** Writes files into a folder; one of zeros alone takes no room. */
export function lay(files, folder) {
  for (const [name, octets] of files) {
    const isBlank = octets.equals(Buffer.alloc(octets.length));
    mkdirSync(dirname(join(folder, name)), { recursive: true });
    writeFileSync(join(folder, name), isBlank ? "" : octets);
    if (isBlank) truncateSync(join(folder, name), octets.length);
  }
}
