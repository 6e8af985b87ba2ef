import { spawnSync } from "node:child_process";
import { mkdirSync, openSync } from "node:fs";
import { join } from "node:path";
import { Fault } from "../fault.js";

/**
 * Holds a folder for this process alone. The lock is the kernel's, on a file that stays open. `flock` (util-linux)
 * takes it by the file that it inherits, and it ends with this process, however that ends: nothing is left to be
 * cleared away, as a number of a process would be. Processes that this one starts later do not inherit the file.
 * @param {string} folder
 */
export function hold(folder) {
  mkdirSync(folder, { recursive: true });
  const file = openSync(join(folder, "lock"), "a");
  const { error, status, stderr } = spawnSync("flock", ["-n", "3"], { stdio: ["ignore", "ignore", "pipe", file] });
  if (error) throw new Fault(`flock, of util-linux: ${error.message}`);
  const said = stderr.toString().trim();
  if (status !== 0) throw new Fault(said === "" ? `another watch has the folder ${folder}` : said);
}
