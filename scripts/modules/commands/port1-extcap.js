import { spawn } from "node:child_process";
import { openSync } from "node:fs";
import { ListingReader } from "../listing/read.js";
import { PCAPNG_HEAD, pcapngOf } from "../pcap/forms.js";
import { Packets } from "../pcap/packets.js";
import { RATE, SILENCE } from "../port1.js";
import { misuse, run, warn, whole, wordsOf, write, writeText } from "../system/command.js";
import { textIn } from "../system/file.js";
import { programNamed } from "../system/program.js";
import { onEndOfStream } from "../system/signals.js";
import { PAIRS, arrivalsOf } from "../watch/forms.js";
import { Source } from "../watch/source.js";

const RECORDER =
  "sigrok-cli -d fx2lafw -c samplerate=4m --continuous -O binary | recording-to-bits --samplerate 4M 0 1 2 3";

/** What Wireshark asks for (wireshark-extcap(4)). */
const INTERFACES = `extcap {version=1.0}
interface {value=port1}{display=NEMA TS 2 Port 1}
`;

const TYPES = "dlt {number=268}{name=SDLC}{display=SDLC}\n";

/** Its dialog: each line is an argument of the capture. */
const DIALOG = `arg {number=0}{call=--source}{display=Command that writes bits}{type=string}{placeholder=sigrok-cli .. | recording-to-bits ..}
arg {number=1}{call=--dictionary}{display=Dictionary}{type=fileselect}{mustexist=true}
arg {number=2}{call=--two}{display=Pairs of bits, not in order of arrival}{type=boolflag}
arg {number=3}{call=--rest}{display=Silence that ends an answer, in bits; 0 for none}{type=unsigned}{default=${SILENCE}}
`;

/** How long a frame is held back for what may still be said of it, in milliseconds. */
const HELD = 300;

/**
 * @type {Record<"extcap-interfaces"|"extcap-dlts"|"extcap-config"|"capture"|"two", true>
 *   & Record<"extcap-interface"|"extcap-version"|"extcap-capture-filter"|"extcap-reload-option", typeof String>
 *   & Record<"fifo"|"source"|"dictionary", typeof String> & { rest: typeof whole }}
 */
const OPTIONS = {
  ...{ "extcap-interfaces": true, "extcap-dlts": true, "extcap-config": true, capture: true, two: true },
  ...{ "extcap-interface": String, "extcap-version": String, "extcap-capture-filter": String },
  ...{ "extcap-reload-option": String, fifo: String, source: String, dictionary: String, rest: whole },
};

/** @typedef {{ fifo: string, source?: string, dictionary?: string, two?: boolean, rest?: number }} Asked of a capture */

/** Writes the packets of a listing as they come, with the time of day at which the first one came. */
class Capture {
  packets = new Packets();
  reader = new ListingReader();
  /** @type {import("../pcap/forms.js").Clock|null} */
  clock = null;
  heard = performance.now();

  /** @param {string} fifo */
  constructor(fifo) {
    this.sink = openSync(fifo, "w");
    write(PCAPNG_HEAD, this.sink);
  }

  /** @param {Uint8Array} piece of the listing */
  take(piece) {
    this.reader.take(piece);
    for (const packet of this.packets.take(this.reader.newRows())) this.put(packet);
    this.reader.forget();
    this.heard = performance.now();
  }

  /** @param {import("../pcap/packets.js").Packet} packet */
  put(packet) {
    this.clock ??= { rate: RATE, zero: Date.now() - (1000 * packet.row.past) / RATE };
    write(pcapngOf(packet, this.clock), this.sink);
  }

  /** Writes what was held back, where nothing follows it. */
  flush() {
    if (performance.now() - this.heard > HELD) this.packets.rest().forEach((packet) => this.put(packet));
  }
}

/**
 * Captures until the recorder or whoever reads ends.
 * @param {Asked} values
 */
async function capture({ fifo, source: command, dictionary, two, rest }) {
  const source = new Source(command || process.env.PORT1_SOURCE || RECORDER);
  const file = dictionary || process.env.PORT1_DICTIONARY;
  const words = ["list", "--bits", ...(two ? PAIRS : arrivalsOf(rest)).options];
  const text = file ? ["--dict", textIn(file).replace(/\n+$/, "")] : [];
  const listing = new Capture(fifo);
  const bits = source.start();
  const decoder = spawn(programNamed("port1"), [...words, ...text], { stdio: ["pipe", "pipe", "ignore"] });
  onEndOfStream(() => source.stop());
  decoder.stdin.on("error", () => source.stop());
  decoder.on("error", ({ message }) => {
    warn(message);
    process.exit(2);
  });
  bits.pipe(decoder.stdin);
  const timer = setInterval(() => listing.flush(), HELD / 3);
  try {
    for await (const piece of decoder.stdout) listing.take(piece);
    listing.packets.rest().forEach((packet) => listing.put(packet));
  } catch (fault) {
    if (/** @type {{ code?: string }} */ (fault).code !== "EPIPE") throw fault;
    return; // Wireshark reads no more
  } finally {
    clearInterval(timer);
    source.stop();
  }
  const { status, said } = await source.ended();
  if (status !== 0) warn(`the recorder ended with ${status}${said && `: ${said.split("\n").at(-1)}`}`);
}

run(async () => {
  const { values } = wordsOf(OPTIONS);
  if (values["extcap-interfaces"]) return writeText(INTERFACES);
  if (values["extcap-dlts"]) return writeText(TYPES);
  if (values["extcap-config"]) return writeText(DIALOG);
  if (!values.capture || !values.fifo) throw misuse("Wireshark calls this; --extcap-interfaces lists what there is");
  await capture(/** @type {Asked} */ (values));
  process.exit(0);
});
