import { SILENCE } from "../../../scripts/modules/port1.js";

/**
 * How \`port1\` is told the kind of a capture.
 * @type {Record<import("./page.js").CaptureKind, string[]>}
 */
const KINDS = { 1: [], 2: ["--two"], arrivals: ["--arrivals"] };

/**
 * The silence that brings a second line to rest, as it is written in the field for it.
 * @param {string} text
 */
export const restOf = (text) => (text.trim() === "" ? SILENCE : Math.max(0, Math.trunc(Number(text) || 0)));

/**
 * The command that lists the same.
 * @param {import("./page.js").Asked} job
 * @param {string} name
 */
export function commandOf(job, name) {
  if (job.form === "listing") return "";
  const isRecording = job.channels.length > 0;
  /** @type {import("./page.js").CaptureKind} */
  const kind = isRecording ? (job.channels.length > 2 ? "arrivals" : 1) : job.kind;
  const bits = job.form === "text" || isRecording ? ["--bits"] : [];
  const dictionary = job.dictionary ? ['--dict "$(cat DICTIONARY)"'] : [];
  const rest = kind === "arrivals" && job.rest !== SILENCE ? [`--rest ${job.rest}`] : [];
  const list = ["port1 list", ...bits, ...KINDS[kind], ...rest, ...dictionary].join(" ");
  const file = quoted(name);
  if (!isRecording) return `The same listing: ${list} < ${file}`;
  const data = [job.channels[1], job.channels[job.channels.length - 1]];
  const inverted = data.filter((_, at) => (job.inverted >> at) & 1).join(",");
  const options = [...(job.rising ? [] : ["--falling"]), ...(inverted ? [`--invert ${quoted(inverted)}`] : [])];
  return `The same listing: ${["recording-to-bits", ...options, ...job.channels.map(quoted)].join(" ")} < ${file} | ${list}`;
}

/**
 * A word as a shell takes it.
 * @param {string} word
 */
function quoted(word) {
  return /^[\w.,:+@%/-]+$/.test(word) ? word : `'${word.replaceAll("'", "'\\''")}'`;
}
