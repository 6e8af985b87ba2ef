import { BOUNDS } from "./kind.js";

/** @typedef {import("./kind.js").Kind} Kind */
/** @typedef {Record<string, string|number>} Labels */

/**
 * A sample: its labels, its value, and what stands after the name.
 * @typedef {[labels: Labels, value: string|number, suffix?: string]} Sample
 */

/** @param {Labels} labels */
function labelled(labels) {
  const pairs = Object.entries(labels).map(([name, value]) => `${name}="${value}"`);
  return pairs.length > 0 ? `{${pairs.join(",")}}` : "";
}

/**
 * A family of metrics as Prometheus reads it.
 * @param {string} name
 * @param {string} type
 * @param {string} help
 * @param {Sample[]} samples
 */
function family(name, type, help, samples) {
  const lines = samples.map(([labels, value, suffix = ""]) => `${name}${suffix}${labelled(labels)} ${value}`);
  return samples.length === 0 ? [] : [`# HELP ${name} ${help}`, `# TYPE ${name} ${type}`, ...lines];
}

/**
 * The times to answers of a kind.
 * @param {Labels} labels
 * @param {Kind} kind
 * @returns {Sample[]}
 */
function replySamples(labels, { replies, replySeconds }) {
  const sums = replies.map((_, at) => replies.slice(0, at + 1).reduce((sum, count) => sum + count, 0));
  /** @type {Sample[]} */
  const buckets = sums.map((count, at) => [{ ...labels, le: BOUNDS[at] ?? "+Inf" }, count, "_bucket"]);
  return [...buckets, [labels, replySeconds.toFixed(6), "_sum"], [labels, sums[sums.length - 1], "_count"]];
}

/** @param {import("./triggers.js").Triggers} triggers */
function ofBus({ kinds, frames, damage }) {
  const named = [...kinds].map(([name, kind]) => {
    const [station, type] = name.split("/");
    return { labels: { station, type }, kind };
  });
  /** @param {{ labels: Labels, kind: Kind }} named @returns {Sample[]} */
  const verdicts = ({ labels, kind }) =>
    Object.entries(kind.verdicts).map(([verdict, count]) => [{ ...labels, verdict }, count]);
  /** @type {Sample[]} */
  const pieces = [...damage].map(([key, count]) => [{ line: key[0], cause: key.slice(2) }, count]);
  return [
    ...family("port1_frames_total", "counter", "Good frames.", [1, 2].map((line) => [{ line }, frames[line]])),
    ...family("port1_commands_total", "counter", "Commands.", named.map(({ labels, kind }) => [labels, kind.sent])),
    ...family("port1_verdicts_total", "counter", "Commands by what became of them.", named.flatMap(verdicts)),
    ...family("port1_damage_total", "counter", "Damaged pieces.", pieces),
    ...family("port1_reply_seconds", "histogram", "Times from commands to answers.",
      named.flatMap(({ labels, kind }) => replySamples(labels, kind))),
  ];
}

/**
 * All metrics, as the textfile collector of node_exporter reads them.
 * @param {import("./triggers.js").Triggers} triggers
 * @param {Map<string, number>} tally of causes of incidents
 * @param {{ lost: number, unsaved: number, failed: number, places: number, last: number }} counts
 */
export function metricsOf(triggers, tally, counts) {
  /** @param {string} name @param {string} type @param {string} help @param {string|number} value */
  const one = (name, type, help, value) => family(name, type, help, [[{}, value]]);
  /** @type {Sample[]} */
  const causes = [...tally].map(([cause, count]) => [{ cause }, count]);
  const { lost, unsaved, failed, places, last } = counts;
  return [
    ...ofBus(triggers),
    ...family("port1_incidents_total", "counter", "Causes of incidents.", causes),
    ...one("port1_input_lost_seconds_total", "counter", "Input that was lost.", lost.toFixed(3)),
    ...one("port1_incidents_unsaved_total", "counter", "Incidents without a folder.", unsaved),
    ...one("port1_ring_failed_octets_total", "counter", "Octets that the disk did not take.", failed),
    ...one("port1_places_total", "counter", "Bits of the first line.", places),
    ...one("port1_last_input_timestamp_seconds", "gauge", "When the last bit came.", last.toFixed(3)),
  ].map((line) => `${line}\n`).join("");
}
