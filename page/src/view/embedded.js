import { element } from "./dom.js";

/**
 * The octets that stand in the page as base64.
 * @param {string} id
 */
export function octetsOf(id) {
  const text = atob(element(id).textContent.trim());
  return Uint8Array.from(text, (character) => character.charCodeAt(0));
}

/**
 * The first decoder in the page that this browser can run: the one with 64-bit memory, else the one with 32-bit memory.
 * @returns {import("../engine/library.js").Engine|null}
 */
export function engineOf() {
  if (typeof WebAssembly !== "object") return null;
  for (const id of /** @type {const} */ (["engine", "engine-32"])) {
    const module = element(id) && octetsOf(id);
    if (module && WebAssembly.validate(module)) return { module, isWide: id === "engine" };
  }
  return null;
}

/**
 * What stands in the page as base64 of gzip.
 * @param {string} id
 * @returns {Promise<Blob>}
 */
export function unpacked(id) {
  const stream = new Blob([octetsOf(id)]).stream().pipeThrough(new DecompressionStream("gzip"));
  return new Response(stream).blob();
}
