// Runs programs of Python, from which the expected values of tests come.

import { spawnSync } from "node:child_process";
import { fileURLToPath } from "node:url";

/** The top of the repository. */
export const TOP = fileURLToPath(new URL("../../../../", import.meta.url));

const ENVIRONMENT = { ...process.env, PYTHONDONTWRITEBYTECODE: "1" };

const MOST_OUTPUT = 2 ** 30;

/**
 * What a Python program writes as JSON for an input that it reads as JSON.
 * @param {string} program
 * @param {unknown} input
 * @param {...string} words
 */
export function askPython(program, input, ...words) {
  const how = { input: JSON.stringify(input), env: ENVIRONMENT, maxBuffer: MOST_OUTPUT };
  const { error, status, stdout, stderr } = spawnSync("python3", ["-c", `import json, sys\n${program}`, ...words], how);
  if (error) throw error;
  if (status !== 0) throw new Error(stderr.toString());
  return JSON.parse(stdout.toString());
}

/** Whether this run is one of all tests, also those that take long. */
export const IS_WHOLE = process.env.PORT1_ALL === "1";
