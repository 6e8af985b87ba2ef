import { spawnSync } from "node:child_process";
import { readFileSync } from "node:fs";
import { join } from "node:path";
import { remarksOfFile } from "../dictionary/check.js";
import { Fault } from "../fault.js";
import { run, wordsOf, writeText } from "../system/command.js";
import { TOP, programNamed } from "../system/program.js";

/**
 * The fault that the program finds, as it says it; nothing where the dictionary is good.
 * @param {string} text
 */
function judgement(text) {
  const program = programNamed("port1");
  const words = ["check", "--bits", `--dict=${text}`];
  const { error, status, signal, stderr } = spawnSync(program, words, { stdio: ["ignore", "ignore", "pipe"] });
  if (error && "code" in error && error.code === "E2BIG") {
    return "longer than the 131071 octets that Linux takes in one argument of a command";
  }
  if (error) throw error;
  const said = stderr.toString().trim();
  if (status !== 0 && status !== 2) throw new Fault(`${program} ended with ${signal ?? `status ${status}`}: ${said}`);
  return status === 2 ? said.replace(/^port1: /, "") : undefined;
}

run(() => {
  const [file] = wordsOf({}, ["FILE"]).words;
  const schema = JSON.parse(readFileSync(join(TOP, "examples/dictionary.schema.json"), "utf8"));
  const remarks = remarksOfFile(readFileSync(file), schema, judgement);
  const faults = remarks.filter(({ isFault }) => isFault).length;
  const lines = remarks.map(({ line, text }) => `${file}:${line}: ${text}\n`);
  writeText(`${lines.join("")}${file}: ${faults || "no"} fault${faults === 1 ? "" : "s"}\n`);
  return faults ? 1 : 0;
});
