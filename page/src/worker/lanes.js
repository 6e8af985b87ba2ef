import { countBefore } from "../engine/search.js";
import { DAMAGE_TRACKS, STATIONS, rowsByTrack, sizeOfStation, tracksOf } from "./tracks.js";

/** @typedef {import("../../../scripts/modules/findings/findings.js").Stretch} Stretch */
/** @typedef {import("../../../scripts/modules/listing/listing.js").Listing} Listing */
/** @typedef {import("./tracks.js").Rows} Rows */
/** @typedef {import("./tracks.js").TrackName} TrackName */
/** @typedef {import("./tracks.js").WholeTrack} WholeTrack */

/**
 * What is said of a lane, and the times without a kind of commands.
 * @typedef {{ id: string, name: string, about: string, isStation: boolean, gaps: Stretch[] }} LaneHead
 */

/** @typedef {LaneHead & { stations: number[], tracks: WholeTrack[] }} WholeLane with all of its lines */
/** @typedef {LaneHead & { tracks: Track[] }} Lane as far as it is in view */

/** @typedef {{ row: number, first: number, past: number, text: string }} Mark */

/**
 * How many marks begin in each bin, and the first row of each.
 * @typedef {{ counts: Uint32Array, leaders: Uint32Array }} Bins
 */

/**
 * A track, how many of its lines begin in view, and how many it has in all.
 * @typedef {{ id: TrackName, isSign: boolean, count: number, total: number }} TrackHead
 */

/** @typedef {TrackHead & { marks: Mark[], counts?: undefined, leaders?: undefined }} MarkedTrack */
/** @typedef {TrackHead & Bins & { marks?: undefined }} BinnedTrack where there are too many marks in view */
/** @typedef {MarkedTrack|BinnedTrack} Track */

/** When there are more ticks than this in view, in all lanes, they are counted in bins. */
const MOST_MARKS = 1500;

/** Signs differ in form: so many of a track are drawn one by one. */
const MOST_SIGNS = 250;

/** Pieces of more bits than this are looked for apart, since they reach far past the place where they begin. */
const LONG = 20000;

/** The most stations that have a lane of their own; the others share one. */
const MOST_STATIONS = 24;

/** How many bins of a track of ticks one of a track of signs is wide. */
const SIGN_BINS = 5;

/**
 * How many of a track's lines begin before a place.
 * @param {Float64Array} firsts
 * @param {Uint32Array} rows
 * @param {number} place
 */
function rowsBefore(firsts, rows, place) {
  return countBefore(rows.length, (at) => firsts[rows[at]] < place);
}

/**
 * Stations by the lanes that they have: those with most lines each their own, the rest together.
 * @param {number[]} stations
 * @param {(station: number) => number} sizeOf
 */
function shared(stations, sizeOf) {
  if (stations.length <= MOST_STATIONS) return stations.map((station) => [station]);
  const kept = new Set([...stations].sort((one, other) => sizeOf(other) - sizeOf(one)).slice(0, MOST_STATIONS - 1));
  const rest = stations.filter((station) => !kept.has(station));
  return [...stations.filter((station) => kept.has(station)).map((station) => [station]), rest];
}

/** The timeline of a listing: a lane for each station, and one for the damage of each line. */
export class Lanes {
  /**
   * @param {Listing} listing
   * @param {Map<number, Stretch[]>} gaps of stations
   * @param {Map<number, string>} names what is sent to them
   */
  constructor(listing, gaps, names) {
    this.listing = listing;
    this.isOfTwo = listing.length > 0 && listing.lines[0] !== 0;
    this.range = rangeOf(listing);
    const tracks = rowsByTrack(listing);
    const sizeOf = (/** @type {number} */ station) => sizeOfStation(tracks, station);
    this.stations = Array.from({ length: STATIONS }, (_, station) => station).filter((station) => sizeOf(station) > 0);
    const ofStations = shared(this.stations, sizeOf).map((some) => this.ofStations(some, tracks, gaps, names));
    const ofDamage = [0, 1, 2].flatMap((line) => this.ofDamage(line, tracks[DAMAGE_TRACKS + line]));
    this.lanes = [...ofStations, ...ofDamage];
  }

  /**
   * The lane of a station, or of several.
   * @param {number[]} stations
   * @param {Rows[]} tracks
   * @param {Map<number, Stretch[]>} gaps
   * @param {Map<number, string>} names
   */
  ofStations(stations, tracks, gaps, names) {
    const [station, ...others] = stations;
    const name = others.length > 0 ? "others" : String(station);
    const about = others.length > 0 ? `${stations.length} stations` : names.get(station) ?? "";
    const own = stations.flatMap((some) => gaps.get(some) ?? []);
    return this.lane({ id: name, name, about, isStation: true, stations, gaps: own }, tracksOf(this.listing, tracks, stations));
  }

  /**
   * The lane of the damage of a line, if there is any; line 0 is that of a listing of one line.
   * @param {number} line
   * @param {Rows} rows
   */
  ofDamage(line, rows) {
    const about = line === 0 ? "" : `line ${line}`;
    const told = { id: `damage ${line}`, name: "Damage", about, isStation: false, stations: [], gaps: [] };
    return rows === null ? [] : [this.lane(told, [{ id: "damage", isSign: false, rows }])];
  }

  /** @param {Omit<WholeLane, "tracks">} told @param {Omit<WholeTrack, "long">[]} tracks @returns {WholeLane} */
  lane(told, tracks) {
    const isLong = (/** @type {number} */ row) => this.listing.pasts[row] - this.listing.firsts[row] > LONG;
    return { ...told, tracks: tracks.map((track) => ({ ...track, long: track.rows.filter(isLong) })) };
  }

  /**
   * What stands from one place to another: for each track its marks, or, if they are many, how many begin in each bin.
   * @param {number} first
   * @param {number} past
   * @param {number} bins
   * @param {number|null} station the only one that is wanted, if not all are
   * @returns {Lane[]}
   */
  between(first, past, bins, station = null) {
    const lanes = this.lanes.filter((lane) => station === null || !lane.isStation || lane.stations.includes(station));
    const areFew = this.ticksBetween(lanes, first, past) <= MOST_MARKS;
    return lanes.map(({ tracks, gaps, stations, ...lane }) => ({
      ...lane,
      gaps: gaps.filter((gap) => gap.past > first && gap.first < past),
      tracks: tracks.map((track) => this.trackBetween(track, first, past, bins, areFew)),
    }));
  }

  /** @param {WholeLane[]} lanes @param {number} first @param {number} past */
  ticksBetween(lanes, first, past) {
    const { firsts } = this.listing;
    const tracks = lanes.flatMap((lane) => lane.tracks.filter(({ isSign }) => !isSign));
    /** @param {WholeTrack} track */
    const within = ({ rows }) => rowsBefore(firsts, rows, past) - rowsBefore(firsts, rows, first - LONG);
    return tracks.reduce((sum, track) => sum + within(track), 0);
  }

  /**
   * @param {WholeTrack} track
   * @param {number} first
   * @param {number} past
   * @param {number} bins
   * @param {boolean} areFew
   * @returns {Track}
   */
  trackBetween({ id, isSign, rows, long }, first, past, bins, areFew) {
    const { firsts } = this.listing;
    const [from, to] = [rowsBefore(firsts, rows, first - LONG), rowsBefore(firsts, rows, past)];
    const told = { id, isSign, count: to - rowsBefore(firsts, rows, first), total: rows.length };
    const isExact = isSign ? to - from <= MOST_SIGNS : areFew;
    if (isExact) return { ...told, marks: this.marks(rows.subarray(from, to), long, first) };
    return { ...told, ...this.bins(rows, first, past, isSign ? Math.ceil(bins / SIGN_BINS) : bins) };
  }

  /**
   * The marks of some lines that reach past a place, and of long ones that began well before it.
   * @param {Uint32Array} rows
   * @param {Uint32Array} long
   * @param {number} first
   * @returns {Mark[]}
   */
  marks(rows, long, first) {
    const { listing } = this;
    return [...Array.from(long).filter((row) => listing.firsts[row] < first - LONG), ...rows]
      .filter((row) => listing.pasts[row] > first)
      .map((row) => ({ row, first: listing.firsts[row], past: listing.pasts[row], text: listing.text(row) }));
  }

  /**
   * How many marks begin in each bin, and the first of them.
   * @param {Uint32Array} rows
   * @param {number} first
   * @param {number} past
   * @param {number} bins
   * @returns {Bins}
   */
  bins(rows, first, past, bins) {
    const { firsts } = this.listing;
    const counts = new Uint32Array(bins);
    const leaders = new Uint32Array(bins);
    let before = rowsBefore(firsts, rows, first);
    for (let bin = 0; bin < bins; bin++) {
      const next = rowsBefore(firsts, rows, first + ((past - first) * (bin + 1)) / bins);
      counts[bin] = next - before;
      leaders[bin] = rows[before] ?? 0;
      before = next;
    }
    return { counts, leaders };
  }
}

/**
 * The first place of a listing and the one just after its last bit.
 * @param {Listing} listing
 */
function rangeOf(listing) {
  if (listing.length === 0) return [0, 1];
  let [first, past] = [Infinity, 0];
  for (let at = 0; at < listing.length; at++) {
    first = Math.min(first, listing.firsts[at]);
    past = Math.max(past, listing.pasts[at]);
  }
  return [first, past];
}
