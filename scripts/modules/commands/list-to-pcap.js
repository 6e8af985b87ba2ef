import { PCAP_HEAD, PCAPNG_HEAD, pcapOf, pcapngOf, timeOf } from "../pcap/forms.js";
import { Packets } from "../pcap/packets.js";
import { DayTime } from "../statistics/day-time.js";
import { misuse, positive, run, wordOf, wordsOf, write } from "../system/command.js";
import { rowsOfInput } from "../system/input.js";
import { writeFile } from "../system/output.js";

/** @typedef {import("../pcap/packets.js").Packet} Packet */

/** The frames of the listing on standard input. */
async function* packetsOfInput() {
  const packets = new Packets();
  for await (const rows of rowsOfInput()) yield* packets.take(rows);
  yield* packets.rest();
}

/**
 * What text2pcap would be given for a packet.
 * @param {Packet} packet
 * @param {import("../pcap/forms.js").Clock} clock
 */
function textOf(packet, clock) {
  const [seconds, micros] = timeOf(packet, clock);
  const octets = (packet.octets.toString("hex").match(/../g) ?? []).join(" ");
  return Buffer.from(`${seconds}.${String(micros).padStart(6, "0")}\n000000 ${octets}\n`);
}

/**
 * Writes a file of the form that its name says.
 * @param {string} file
 * @param {import("../pcap/forms.js").Clock} clock
 */
const writePackets = (file, clock) =>
  writeFile(file, async (sink) => {
    const [head, octetsOf] = file.endsWith(".pcapng") ? [PCAPNG_HEAD, pcapngOf] : [PCAP_HEAD, pcapOf];
    write(head, sink);
    for await (const packet of packetsOfInput()) write(octetsOf(packet, clock), sink);
  });

run(async () => {
  const begin = (/** @type {string} */ time) => new DayTime(time).begin;
  const { values, words: [bitrate, file] } = wordsOf({ text: true, begin }, ["BITRATE"], 2);
  const clock = { rate: wordOf("BITRATE", bitrate, positive), zero: values.begin ?? 0 };
  if (values.text === true && file !== undefined) throw misuse("--text takes no FILE");
  if (values.text !== true && file === undefined) throw misuse("there is no FILE");
  if (file !== undefined) return writePackets(file, clock);
  for await (const packet of packetsOfInput()) write(textOf(packet, clock));
});
