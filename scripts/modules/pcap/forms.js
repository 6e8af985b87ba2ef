/** @typedef {import("./packets.js").Packet} Packet */

/** LINKTYPE_SDLC of the list of link types of tcpdump. */
export const LINK_TYPE = 268;

/** The most lines of which one comment has the text. */
const MOST_REMARKS = 8;

/**
 * When a place was: bits a second, and when place 0 was, in milliseconds since 1970.
 * @typedef {{ rate: number, zero: number }} Clock
 */

/**
 * The time of a packet: whole seconds, and microseconds.
 * @param {Packet} packet
 * @param {Clock} clock
 */
export function timeOf({ row: { first } }, { rate, zero }) {
  const micros = Math.floor(((first % rate) * 1e6) / rate + Math.round(1000 * (zero % 1000)));
  return [Math.floor(first / rate) + Math.floor(zero / 1000) + Math.floor(micros / 1e6), micros % 1e6];
}

/**
 * Numbers of 32 bits, the lowest octet first.
 * @param {...number} numbers
 */
const words = (...numbers) => Buffer.from(Uint32Array.from(numbers).buffer);

/** The head of a pcap file: version 2.4, times in microseconds. */
export const PCAP_HEAD = words(0xa1b2c3d4, 2 | (4 << 16), 0, 0, 1 << 18, LINK_TYPE);

/** @param {Packet} packet @param {Clock} clock */
export function pcapOf(packet, clock) {
  const { length } = packet.octets;
  return Buffer.concat([words(...timeOf(packet, clock), length, length), packet.octets]);
}

/**
 * Octets up to a whole number of words.
 * @param {Uint8Array} octets
 */
const padded = (octets) => Buffer.concat([octets, Buffer.alloc(-octets.length & 3)]);

/** A block of pcapng (draft-ietf-opsawg-pcapng): its type and length, the body, and the length again. */
function block(/** @type {number} */ type, /** @type {Buffer[]} */ ...parts) {
  const body = Buffer.concat(parts);
  return Buffer.concat([words(type, body.length + 12), body, words(body.length + 12)]);
}

/** @param {number} code @param {Uint8Array} value */
const option = (code, value) => Buffer.concat([words(code | (value.length << 16)), padded(value)]);

const [SECTION, INTERFACE, PACKET] = [0x0a0d0d0a, 1, 6];
const [END, COMMENT, FLAGS] = [0, 1, 2];
const [INBOUND, OUTBOUND] = [1, 2];

/** One section of version 1.0 and of any length, and one interface. */
export const PCAPNG_HEAD = Buffer.concat([
  block(SECTION, words(0x1a2b3c4d, 1, 0xffffffff, 0xffffffff)),
  block(INTERFACE, words(LINK_TYPE, 1 << 18)),
]);

/** @param {Packet} packet @param {Clock} clock */
export function pcapngOf(packet, clock) {
  const { row: { line }, octets, remarks } = packet;
  const [seconds, micros] = timeOf(packet, clock);
  const time = BigInt(seconds) * 1_000_000n + BigInt(micros);
  const head = words(0, Number(time >> 32n), Number(time & 0xffffffffn), octets.length, octets.length);
  const more = remarks.length > MOST_REMARKS ? [`and ${remarks.length - MOST_REMARKS} more`] : [];
  const comment = Buffer.from([...remarks.slice(0, MOST_REMARKS), ...more].join("; "));
  const options = [
    ...(comment.length > 0 ? [option(COMMENT, comment)] : []),
    ...(line === null ? [] : [option(FLAGS, words(line === 1 ? OUTBOUND : INBOUND))]),
  ];
  return block(PACKET, head, padded(octets), ...options, ...(options.length > 0 ? [option(END, Buffer.alloc(0))] : []));
}
