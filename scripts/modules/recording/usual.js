/** Names of channels that say what they are: clock and data of the controller, clock and data of the answers. */
const USUAL = [/^txc|tx.?clo?c?k/i, /^txd|tx.?data/i, /^rxc|rx.?clo?c?k/i, /^rxd|rx.?data/i];

/** Names that are numbers alone, as analysers give them; of these, those of sigrok. */
const NUMBERED = /^(?:d|ch|channel|probe)?[ _-]?(\d+)$/i;
const ORDERED = /^d\d+$/i;

/**
 * What channels are by their names.
 * @typedef {object} Usual
 * @property {"named"|"ordered"|"numbered"|"unknown"} how whether their names say which they are; or they are D0 and so
 *   on, or have other numbers, so that these may; or neither
 * @property {string[][]} named those that each of the four may be, by name
 * @property {string[]} order all of them, by number
 */

/** @param {string} name */
const numberOf = (name) => Number(NUMBERED.exec(name)?.[1] ?? 0);

/** @param {string[]} channels @returns {Usual} */
export function usualOf(channels) {
  const named = USUAL.map((usual) => channels.filter((name) => usual.test(name)));
  const order = [...channels].sort((one, other) => numberOf(one) - numberOf(other));
  const areNumbered = channels.length >= 4 && channels.every((name) => NUMBERED.test(name));
  if (named.every((names) => names.length === 1)) return { how: "named", named, order };
  if (!areNumbered || named.some((names) => names.length > 0)) return { how: "unknown", named, order };
  return { how: channels.every((name) => ORDERED.test(name)) ? "ordered" : "numbered", named, order };
}

/**
 * Clock and data of controller and answers; null where neither names nor numbers say which channels these are.
 * @param {string[]} channels
 */
export function wiresAmong(channels) {
  const { how, named, order } = usualOf(channels);
  if (how === "unknown") return null;
  return how === "named" ? named.map(([name]) => name) : order.slice(0, 4);
}
