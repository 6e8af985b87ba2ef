import { Fault } from "../fault.js";
import { faultOf, octetsOf } from "../octets.js";

/** @typedef {import("../octets.js").Part} Part */

/** Records of an archive, by how they begin, and how long they are at least (PKWARE's APPNOTE.TXT, 4.3). */
const [LOCAL, CENTRAL, END] = [0x04034b50, 0x02014b50, 0x06054b50];
const SIZES = { local: 30, central: 46, end: 22 };

/** The longest comment that may stand after the end. */
const MOST_COMMENT = 65535;

/** How a member is packed. */
const [STORED, DEFLATED] = [0, 8];

/** What stands in the place of a number that needs 64 bits. */
const TOO_LARGE = 0xffffffff;

/**
 * A file in an archive.
 * @typedef {{ name: string, method: number, begin: number, packed: number, size: number, checksum: number }} Member
 */

/** The remainders of each octet by the polynomial of its checksum (CRC-32, ISO/IEC 13239, its bits in reverse). */
const REMAINDERS = Uint32Array.from({ length: 256 }, (_, octet) => {
  let rest = octet;
  for (let bit = 0; bit < 8; bit++) rest = rest & 1 ? (rest >>> 1) ^ 0xedb88320 : rest >>> 1;
  return rest;
});

/** The same with one, two and three octets of 0 behind it. */
const behind = (/** @type {number} */ rest) => (rest >>> 8) ^ REMAINDERS[rest & 255];
const SECOND = REMAINDERS.map(behind);
const THIRD = SECOND.map(behind);
const FOURTH = THIRD.map(behind);

/**
 * A checksum without its final inversion, so that octets can be added.
 * @param {Uint8Array} octets
 * @param {number} sum of those before
 */
function summed(octets, sum) {
  const past = octets.length & ~3;
  for (let at = 0; at < past; at += 4) {
    sum ^= octets[at] | (octets[at + 1] << 8) | (octets[at + 2] << 16) | (octets[at + 3] << 24);
    sum = FOURTH[sum & 255] ^ THIRD[(sum >>> 8) & 255] ^ SECOND[(sum >>> 16) & 255] ^ REMAINDERS[sum >>> 24];
  }
  return octets.subarray(past).reduce((rest, octet) => behind(rest ^ octet), sum);
}

/** @param {Part} blob */
const viewOf = async (blob) => new DataView((await octetsOf(blob)).buffer);

/**
 * The members of a zip archive.
 * @param {Part} blob
 * @returns {Promise<Member[]>}
 */
export async function membersOf(blob) {
  const tail = await viewOf(blob.slice(Math.max(0, blob.size - SIZES.end - MOST_COMMENT)));
  let at = tail.byteLength - SIZES.end;
  while (at >= 0 && tail.getUint32(at, true) !== END) at -= 1;
  if (at < 0) throw new Fault("the archive is cut off: it lacks its end, where the table of its files stands");
  const count = tail.getUint16(at + 10, true);
  const [size, begin] = [12, 16].map((place) => tail.getUint32(at + place, true));
  if (begin === TOO_LARGE || begin + size > blob.size) throw new Fault("the archive is cut off, or larger than 4 GiB");
  return membersIn(await viewOf(blob.slice(begin, begin + size)), count);
}

const damagedTable = () => new Fault("the table of the archive's files is damaged");

/** @param {DataView} table @param {number} count */
function membersIn(table, count) {
  const members = [];
  for (let at = 0; members.length < count; ) {
    if (at + SIZES.central > table.byteLength || table.getUint32(at, true) !== CENTRAL) throw damagedTable();
    const [name, extra, comment] = [28, 30, 32].map((place) => table.getUint16(at + place, true));
    if (at + SIZES.central + name > table.byteLength) throw damagedTable();
    members.push({
      name: new TextDecoder().decode(new Uint8Array(table.buffer, at + SIZES.central, name)),
      method: table.getUint16(at + 10, true),
      checksum: table.getUint32(at + 16, true),
      packed: table.getUint32(at + 20, true),
      size: table.getUint32(at + 24, true),
      begin: table.getUint32(at + 42, true),
    });
    at += SIZES.central + name + extra + comment;
  }
  return members;
}

/**
 * Unpacks a stream, as browsers do it.
 * @param {ReadableStream<Uint8Array>} stream
 * @returns {ReadableStream<Uint8Array>}
 */
export const inflated = (stream) => stream.pipeThrough(new DecompressionStream("deflate-raw"));

/**
 * The octets of a member, in pieces of a size, the last one shorter; in the end, whether they have its checksum.
 * @param {Part} blob
 * @param {Member} member
 * @param {number} size
 * @param {typeof inflated} inflate
 * @returns {AsyncGenerator<Uint8Array, boolean>}
 */
export async function* piecesOfMember(blob, { name, method, begin, packed, checksum }, size, inflate) {
  const head = await viewOf(blob.slice(begin, begin + SIZES.local));
  const isWhole = head.byteLength === SIZES.local && head.getUint32(0, true) === LOCAL;
  const isKnown = method === STORED || method === DEFLATED;
  if (!isWhole || !isKnown) throw new Fault(`${name} in the archive cannot be unpacked`);
  const from = begin + SIZES.local + head.getUint16(26, true) + head.getUint16(28, true);
  const stream = blob.slice(from, from + packed).stream();
  let sum = 0xffffffff;
  try {
    for await (const piece of gathered(method === STORED ? stream : inflate(stream), size)) {
      sum = summed(piece, sum);
      yield piece;
    }
  } catch (error) {
    throw faultOf(error, `${name} in the archive is damaged`);
  }
  return ~sum >>> 0 === checksum;
}

/**
 * A stream in pieces of a size.
 * @param {ReadableStream<Uint8Array>} stream
 * @param {number} size
 */
async function* gathered(stream, size) {
  const reader = stream.getReader();
  let [piece, count] = [new Uint8Array(size), 0];
  for (let next = await reader.read(); !next.done; next = await reader.read()) {
    for (let at = 0; at < next.value.length; ) {
      const some = next.value.subarray(at, at + size - count);
      piece.set(some, count);
      [at, count] = [at + some.length, count + some.length];
      if (count < size) continue;
      yield piece;
      [piece, count] = [new Uint8Array(size), 0];
    }
  }
  if (count > 0) yield piece.subarray(0, count);
}
