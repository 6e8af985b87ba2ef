import { FRAME, IDLE, KINDS } from "../../../scripts/modules/listing/kinds.js";

/** @typedef {import("../../../scripts/modules/listing/listing.js").Listing} Listing */

/** How many lines are looked at before the worker may do something else. */
const STRIDE = 100000;

/**
 * What is asked for: a text, a kind, numbers as they were typed, and whether idle lines are left out.
 * @typedef {{ text: string, kind: string, station: string, type: string, isBusy: boolean }} Query
 */

/** @param {Query} query */
function demandOf({ text, kind, station, type, isBusy }) {
  return {
    text: text.trim().toLowerCase(),
    kind: kind ? KINDS.indexOf(/** @type {import("../../../scripts/modules/listing/kinds.js").LineKind} */ (kind)) : -1,
    isBusy: isBusy && !kind,
    station: station === "" ? -1 : Number(station),
    type: type === "" ? -1 : Number(type),
  };
}

/** @param {Listing} listing @param {number} at */
function hasStation(listing, at) {
  return listing.kinds[at] === FRAME || listing.types[at] >= 0;
}

/**
 * Whether a line agrees with all that is asked; as with `port1 list`, one without a station or type agrees with none.
 * @param {Listing} listing
 * @param {number} at
 * @param {ReturnType<typeof demandOf>} demand
 */
function agrees(listing, at, demand) {
  if (demand.kind >= 0 && listing.kinds[at] !== demand.kind) return false;
  if (demand.type >= 0 && listing.types[at] !== demand.type) return false;
  if (demand.station >= 0 && (!hasStation(listing, at) || listing.stations[at] !== demand.station)) return false;
  return demand.text === "" || listing.text(at).toLowerCase().includes(demand.text);
}

/**
 * The lines that a query finds, all where it asks for nothing, and how many idle lines it left out.
 * @param {Listing} listing
 * @param {Query} query
 * @param {() => boolean} isOver whether another query came
 * @returns {Promise<{ rows: Uint32Array|null, idle: number }>}
 */
export async function found(listing, query, isOver) {
  const demand = demandOf(query);
  const { text, kind, station, type, isBusy } = demand;
  if (!text && kind < 0 && station < 0 && type < 0 && !isBusy) return { rows: null, idle: 0 };
  const rows = new Uint32Array(listing.length);
  let [count, idle] = [0, 0];
  for (let from = 0; from < listing.length && !isOver(); from += STRIDE) {
    const past = Math.min(listing.length, from + STRIDE);
    for (let at = from; at < past; at++) {
      if (isBusy && listing.kinds[at] === IDLE) idle += 1;
      else if (agrees(listing, at, demand)) rows[count++] = at;
    }
    await new Promise((resolve) => setTimeout(resolve));
  }
  return { rows: rows.slice(0, count), idle };
}
