// Which folders load which: none loads one that loads it, by whatever way.

import assert from "node:assert/strict";
import { readFileSync, readdirSync } from "node:fs";
import { dirname, join, relative } from "node:path";
import { test } from "node:test";
import { fileURLToPath } from "node:url";

const TOP = fileURLToPath(new URL("..", import.meta.url));

const IMPORT = /^(?:import|export) [^"]*?from "(\.[^"]*)";$/gm;

const isFolder = (name) => !name.includes(".");

const FOLDERS = readdirSync(TOP).filter((name) => isFolder(name) && name !== "tests");

/** The modules of a folder, and of those in it. */
const modulesIn = (folder) =>
  readdirSync(folder).flatMap((name) => {
    if (isFolder(name)) return modulesIn(join(folder, name));
    return name.endsWith(".js") ? [join(folder, name)] : [];
  });

/** The folders that the modules of one load. */
function loadedBy(folder) {
  const files = modulesIn(join(TOP, folder)).flatMap((path) =>
    [...readFileSync(path, "utf8").matchAll(IMPORT)].map(([, from]) => relative(TOP, join(dirname(path), from))),
  );
  return [...new Set(files.filter((file) => file.includes("/")).map((file) => file.split("/")[0]))];
}

/** The ways from a folder back to it. */
function circlesOf(loads) {
  const circles = [];
  const follow = (way) => {
    for (const next of loads[way[way.length - 1]]) {
      if (next === way[0] && way.length > 1) circles.push([...way, next].join(" -> "));
      else if (!way.includes(next)) follow([...way, next]);
    }
  };
  Object.keys(loads).forEach((name) => follow([name]));
  return circles;
}

test("no folder loads one that loads it", () => {
  const loads = Object.fromEntries(FOLDERS.map((name) => [name, loadedBy(name)]));
  assert.ok(loads.commands.includes("watch"));
  assert.deepEqual(circlesOf(loads), []);
});

test("a circle of three folders is found from each", () => {
  assert.equal(circlesOf({ one: ["two"], two: ["three", "two"], three: ["one"] }).length, 3);
});
