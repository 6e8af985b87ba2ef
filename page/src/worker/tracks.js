import { DAMAGES, FRAME, KINDS } from "../../../scripts/modules/listing/kinds.js";
import { ANSWER } from "../../../scripts/modules/port1.js";

/** @typedef {import("../../../scripts/modules/listing/kinds.js").LineKind} LineKind */
/** @typedef {import("../../../scripts/modules/listing/listing.js").Listing} Listing */

/** @typedef {"command"|"answer"|"other"|LineKind|"damage"} TrackName */

/**
 * The lines of a track, in the order of their first bits, and those that are long.
 * @typedef {{ id: TrackName, isSign: boolean, rows: Uint32Array, long: Uint32Array }} WholeTrack
 */

/** @typedef {Uint32Array|null} Rows of a track, if it has any */

/**
 * The tracks of a station: three of ticks, the rest of signs.
 * @type {TrackName[]}
 */
const TRACKS = ["command", "answer", "other", "late", "missing", "spoilt", "stray", "pending"];
const [COMMAND, OF_ANSWERS, OTHER] = [0, 1, 2];
const FIRST_SIGN = 3;

/** Stations, and then the tracks of damage: of a listing of one line, of line 1 and of line 2. */
export const STATIONS = 256;
export const DAMAGE_TRACKS = STATIONS * TRACKS.length;

/** The track of signs of a kind of lines, -1 where it has none; and which kinds are damage. */
const SIGN_OF_KIND = Int8Array.from(KINDS, (name) => TRACKS.indexOf(name, FIRST_SIGN));
const IS_DAMAGE = Uint8Array.from(KINDS, (_, kind) => Number(DAMAGES.includes(kind)));

/**
 * The number of the track to which a line of a listing belongs, or -1.
 * @param {Listing} listing
 * @param {number} at
 */
function trackOf({ kinds, lines, stations, types }, at) {
  const kind = kinds[at];
  if (IS_DAMAGE[kind]) return DAMAGE_TRACKS + lines[at];
  const own = kind === FRAME ? trackOfFrame(types[at]) : SIGN_OF_KIND[kind];
  return own < 0 ? -1 : TRACKS.length * stations[at] + own;
}

/** @param {number} type */
function trackOfFrame(type) {
  if (type < 0) return OTHER;
  return type >= ANSWER ? OF_ANSWERS : COMMAND;
}

/**
 * The lines of a listing by the numbers of their tracks, each in the order of its first bits.
 * @param {Listing} listing
 */
export function rowsByTrack(listing) {
  const counts = new Uint32Array(DAMAGE_TRACKS + 3);
  for (let at = 0; at < listing.length; at++) {
    const track = trackOf(listing, at);
    if (track >= 0) counts[track] += 1;
  }
  const tracks = Array.from(counts, (count) => (count > 0 ? new Uint32Array(count) : null));
  counts.fill(0);
  for (let at = 0; at < listing.length; at++) {
    const track = trackOf(listing, at);
    if (track >= 0) /** @type {Uint32Array} */ (tracks[track])[counts[track]++] = at;
  }
  for (const rows of tracks) if (rows !== null) putInOrder(listing, rows);
  return tracks;
}

/**
 * Lines are in the order in which they were decided, which for most tracks is that of their first bits.
 * @param {Listing} listing
 * @param {Uint32Array} rows
 */
function putInOrder({ firsts }, rows) {
  for (let at = 1; at < rows.length; at++) {
    if (firsts[rows[at]] < firsts[rows[at - 1]]) {
      rows.sort((one, other) => firsts[one] - firsts[other] || one - other);
      return;
    }
  }
}

/** @param {Listing} listing @param {Uint32Array[]} parts */
function joined(listing, parts) {
  const rows = new Uint32Array(parts.reduce((sum, part) => sum + part.length, 0));
  parts.reduce((at, part) => (rows.set(part, at), at + part.length), 0);
  putInOrder(listing, rows);
  return rows;
}

/**
 * The tracks of one station, or of several together.
 * @param {Listing} listing
 * @param {Rows[]} tracks
 * @param {number[]} stations
 */
export function tracksOf(listing, tracks, stations) {
  return TRACKS.flatMap((id, number) => {
    const parts = /** @type {Uint32Array[]} */ (
      stations.map((station) => tracks[TRACKS.length * station + number]).filter((part) => part !== null)
    );
    if (parts.length === 0) return [];
    return [{ id, isSign: number >= FIRST_SIGN, rows: parts.length === 1 ? parts[0] : joined(listing, parts) }];
  });
}

/**
 * How many lines a station has.
 * @param {Rows[]} tracks
 * @param {number} station
 */
export function sizeOfStation(tracks, station) {
  const own = tracks.slice(TRACKS.length * station, TRACKS.length * (station + 1));
  return own.reduce((sum, rows) => sum + (rows?.length ?? 0), 0);
}
