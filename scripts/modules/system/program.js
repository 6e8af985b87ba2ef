import { existsSync } from "node:fs";
import { delimiter, join } from "node:path";
import { fileURLToPath } from "node:url";
import { Fault } from "../fault.js";

/** The folder that has `examples`: of this repository, or where the scripts are installed. */
export const TOP = fileURLToPath(new URL("../../..", import.meta.url));

/**
 * The file of a command of these scripts, which Node runs.
 * @param {string} name
 */
export const commandNamed = (name) => fileURLToPath(new URL(`../commands/${name}.js`, import.meta.url));

/** Where the page is: in this repository, and where the scripts are installed. */
export const PAGES = ["page/out/port1.html", "page/port1.html"].map((file) => join(TOP, file));

/** The page, where it has been built. */
export const page = () => PAGES.find((file) => existsSync(file)) ?? null;

/**
 * A program of this repository: what the variable of its name in capitals says, such as PORT1_SAMPLE; else the one that
 * is built here; else the one on the path.
 * @param {"port1"|"port1-sample"} name
 */
export function programNamed(name) {
  const crate = name.replace("-", "_");
  const variable = crate.toUpperCase();
  const onPath = (process.env.PATH ?? "").split(delimiter).map((folder) => join(folder, name));
  const places = [join(TOP, "crates", crate, "out", crate), ...onPath];
  const found = process.env[variable] || places.find((place) => existsSync(place));
  if (!found) throw new Fault(`there is no program ${name} on the path; the variable ${variable} may say where it is`);
  return found;
}
