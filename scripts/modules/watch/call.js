import { spawn } from "node:child_process";

/** How long a command may take, in milliseconds. */
const MOST_TIME = 60000;

/**
 * Runs a command of the shell for an incident.
 * @param {string} command
 * @param {string} folder of the incident, empty where it could not be saved
 * @param {string[]} causes
 * @returns {Promise<string>} what went wrong, if anything did
 */
export function called(command, folder, causes) {
  const env = { ...process.env, PORT1_INCIDENT: folder, PORT1_CAUSES: causes.join(", ") };
  const child = spawn("sh", ["-c", command], { env, stdio: ["ignore", "ignore", "inherit"], timeout: MOST_TIME });
  return new Promise((done) => {
    child.on("error", (fault) => done(fault.message));
    child.on("close", (status, signal) => done(status === 0 ? "" : `it ended with ${status ?? signal}`));
  });
}
