// Sessions of sigrok: the bits and notes are those of their samples, and what is damaged is refused.

import assert from "node:assert/strict";
import { mkdtempSync, openAsBlob, readFileSync, rmSync } from "node:fs";
import { tmpdir } from "node:os";
import { join } from "node:path";
import { after, test } from "node:test";
import { Fault } from "../fault.js";
import { sessionOf } from "../recording/session.js";
import { taken } from "./recording-helpers.js";
import { askPython } from "./support/scripts.js";

const folder = mkdtempSync(join(tmpdir(), "sessions-"));

after(() => rmSync(folder, { recursive: true }));

/** Writes sessions of a simulated cabinet: as PulseView packs them, unpacked, in parts, wide, and with other channels. */
const WRITE = `
import zipfile
from pathlib import Path
sys.path[:0] = [sys.argv[1], sys.argv[1].replace('scripts', 'tests')]
from tests.simulated import cabinet
folder = Path(json.load(sys.stdin))
made = cabinet.Cabinet(3, 80, True, 4_000_000, polls=4, whole=True)
samples = cabinet.recorded_of(made).samples
HEAD = "[global]\\nsigrok version=0.5.2\\n\\n[device 1]\\ncapturefile=logic-1\\n"

def write(name, octets, width=1, rate="4 MHz", names=("TXC", "TXD", "RXC", "RXD"), parts=1, method=zipfile.ZIP_DEFLATED, prefix="logic-1"):
    with zipfile.ZipFile(folder / name, "w", method) as archive:
        archive.writestr("version", "2")
        probes = "".join(f"probe{at}={each}\\n" for at, each in enumerate(names, 1) if each)
        archive.writestr("metadata", f"{HEAD}total probes={len(names)}\\nsamplerate={rate}\\n{probes}unitsize={width}\\n")
        size = -(-len(octets) // parts)
        for part in reversed(range(parts)):
            archive.writestr(prefix if parts == 1 else f"{prefix}-{part + 1}", octets[part * size : (part + 1) * size])

one = samples.astype("u1").tobytes()
write("plain.sr", one)
write("stored.sr", one, method=zipfile.ZIP_STORED)
write("parts.sr", one, parts=12)
write("wide.sr", (samples.astype("<u2") << 7).tobytes(), 2, names=["", "x", "", "", "", "", "", "TXC", "TXD", "RXC", "RXD"])
write("rate.sr", one, rate="4000000")
write("odd.sr", samples.astype("<u2").tobytes() + b"\\0", 2)
write("none.sr", b"", names=[])
write("half.sr", one, 1.5)
with zipfile.ZipFile(folder / "other.sr", "w") as archive:
    archive.writestr("version", "2")
(folder / "plain.bin").write_bytes(one)
json.dump(len(samples), sys.stdout)
`;

const TOP = new URL("../../..", import.meta.url).pathname;

askPython(WRITE, folder, `${TOP}scripts`);

const WIRES = ["TXC", "TXD", "RXC", "RXD"];

async function readBy(file, channels) {
  const samples = await sessionOf(file);
  return taken(samples.pieces(() => undefined), { form: "session", channels, samples });
}

/** @type {[string, string[]][]} */
const SESSIONS = [
  ["plain.sr", WIRES],
  ["stored.sr", WIRES],
  ["parts.sr", WIRES],
  ["wide.sr", WIRES],
  ["rate.sr", ["TXC", "TXD", "RXD"]],
  ["plain.sr", ["RXC", "RXD"]],
  ["plain.sr", ["0", "1"]],
  ["plain.sr", ["TXC", "nothing"]],
];

/** What is read of the samples themselves, whose channels have these names. */
function readPlain(channels) {
  const samples = { names: [...WIRES, ...["4", "5", "6", "7"]], width: 1, ticks: 4_000_000 };
  return taken([readFileSync(join(folder, "plain.bin"))], { form: "binary", channels, samples });
}

for (const [name, channels] of SESSIONS) {
  test(`${name}: ${channels.join(" ")}`, async () => {
    const got = await readBy(await openAsBlob(join(folder, name)), channels);
    const wanted = await readPlain(channels);
    if (channels.includes("nothing")) {
      assert.deepEqual(got, { bits: "", fault: "no channel has the name nothing; there are: TXC, TXD, RXC, RXD" });
    } else {
      assert.deepEqual(got, wanted);
      assert.ok(got.bits.length > 100);
    }
  });
}

test("the names of the channels, those of none by their numbers", async () => {
  const { names, width, ticks } = await sessionOf(await openAsBlob(join(folder, "wide.sr")));
  assert.deepEqual(names, ["(0)", "x", ...[2, 3, 4, 5, 6].map((at) => `(${at})`), ...WIRES]);
  assert.deepEqual([width, ticks], [2, 4_000_000]);
});

test("how much was read is reported", async () => {
  const session = await sessionOf(await openAsBlob(join(folder, "parts.sr")));
  const heard = [];
  for await (const piece of session.pieces((read, size) => heard.push(read / size))) assert.ok(piece.length > 0);
  assert.deepEqual([heard.length, heard.at(-1)], [12, 1]);
});

const whole = readFileSync(join(folder, "plain.sr"));

/** A session with one octet of its packed samples changed. */
function spoilt() {
  const octets = Buffer.from(whole);
  octets[octets.indexOf("logic-1", octets.indexOf("unitsize") + 20) + 40] ^= 0x55;
  return octets;
}

/** A session with a name that ends beyond the table of the archive's files. */
function longName() {
  const octets = Buffer.from(whole);
  octets.writeUInt16LE(0xffff, octets.lastIndexOf("PK\x01\x02") + 28);
  return octets;
}

/** @type {[string, Uint8Array, RegExp][]} */
const FAULTS = [
  ["cut off", whole.subarray(0, whole.length >> 1), /^the archive is cut off/],
  ["with damaged samples", spoilt(), /in the archive is damaged \(at \d+\.\d{6} s\)$/],
  ["with a name of any length", longName(), /^the table of the archive's files is damaged$/],
  ["without metadata", readFileSync(join(folder, "other.sr")), /no session of PulseView: it has no metadata$/],
  ["with samples of half an octet more", readFileSync(join(folder, "half.sr")), /^the session has no logic channels/],
  ["without channels", readFileSync(join(folder, "none.sr")), /^the session has no logic channels/],
  ["an archive that is empty", Buffer.concat([Buffer.from("PK\x05\x06"), Buffer.alloc(18)]), /it has no metadata$/],
];

for (const [name, octets, wanted] of FAULTS) {
  test(`a session ${name}`, async () => {
    const told = async () => {
      const { fault } = await readBy(new Blob([octets]), WIRES);
      throw new Fault(fault ?? "");
    };
    await assert.rejects(told, (fault) => fault instanceof Fault && wanted.test(fault.message));
  });
}

test("a session that ends within a sample gives what stands before", async () => {
  const got = await readBy(await openAsBlob(join(folder, "odd.sr")), WIRES);
  const { bits } = await readPlain(WIRES);
  assert.deepEqual(got, { bits, fault: "the recording ends within a sample of 2 octets" });
});
