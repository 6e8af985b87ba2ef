// What a power cut leaves: node --import power_disk.js .. bus-watch.js FOLDER .. keeps in PORT1_SHADOW what was flushed.
//
// `data` has the flushed octets of each file, and `folders` the flushed names of each folder, by the numbers of their
// inodes: a name is a link to one of these. So `cp -rL` of the folder's own number gives the folder after a power cut.

import * as fs from "node:fs";
import { join, resolve } from "node:path";

import { Disk } from "../../watch/disk.js";

const shadow = process.env.PORT1_SHADOW ?? "";

const dataOf = (ino) => join(shadow, "data", String(ino));
const folderOf = (ino) => join(shadow, "folders", String(ino));

/** Puts something in place of what is there, so that a kill leaves the one or the other. */
function placed(path, make) {
  const fresh = `${path}.fresh`;
  fs.rmSync(fresh, { force: true });
  make(fresh);
  fs.renameSync(fresh, path);
}

/** Takes down the octets of a file: those that are new, or all where it has fewer. */
function flushFile(path, isLog) {
  const { ino, size } = fs.statSync(path);
  const known = fs.existsSync(dataOf(ino)) ? fs.statSync(dataOf(ino)).size : 0;
  const octets = fs.readFileSync(path);
  if (isLog && known > 0 && known <= size) fs.appendFileSync(dataOf(ino), octets.subarray(known));
  else placed(dataOf(ino), (fresh) => fs.writeFileSync(fresh, octets));
}

/** Takes down the names of a folder, those of the folders below only at the beginning. */
function flushNames(path, isBegin = false) {
  const own = folderOf(fs.statSync(path).ino);
  fs.mkdirSync(own, { recursive: true });
  const names = fs.readdirSync(path);
  const gone = fs.readdirSync(own).filter((name) => !names.includes(name));
  for (const name of names) {
    const file = join(path, name);
    const stat = fs.statSync(file);
    const isFolder = stat.isDirectory();
    const target = isFolder ? folderOf(stat.ino) : dataOf(stat.ino);
    if (isFolder) isBegin ? flushNames(file, true) : fs.mkdirSync(target, { recursive: true });
    else if (isBegin) flushFile(file, false);
    else if (!fs.existsSync(target)) fs.writeFileSync(target, "");
    placed(join(own, name), (fresh) => fs.symlinkSync(target, fresh));
  }
  gone.forEach((name) => fs.rmSync(join(own, name), { force: true }));
}

if (shadow !== "" && /bus-watch\.js$/.test(process.argv[1] ?? "")) {
  const folder = resolve(process.argv[2]);
  fs.mkdirSync(join(shadow, "data"), { recursive: true });
  flushNames(folder, true);
  const paths = new Map();
  const { open } = Disk.prototype;
  Disk.prototype.open = function (path, flags) {
    const file = open.call(this, path, flags);
    paths.set(file, path);
    return file;
  };
  Disk.prototype.sync = async function (file) {
    const path = paths.get(file);
    const isThere = fs.existsSync(path) && fs.statSync(path).ino === fs.fstatSync(file).ino;
    if (isThere && resolve(path).startsWith(folder)) flushFile(path, path.includes("/ring/") || path.endsWith(".jsonl"));
  };
  Disk.prototype.syncFolder = async function (path) {
    if (resolve(path).startsWith(folder)) flushNames(path);
  };
}
