import { Histogram } from "./histogram.js";

/**
 * Times to answers, in bits: of those in time, and of late ones.
 * @typedef {{inTime: Histogram, late: Histogram}} Replies
 */

/**
 * The times to answers of each kind of commands that has any, and of all together.
 * @param {import("./bus.js").Bus} bus
 * @returns {{all: Replies, kinds: (Replies & {kind: import("./kinds.js").Kind, name: string})[]}}
 */
export function repliesOf(bus) {
  const every = bus.commands.sorted().map(([kind, { name, inTime, late }]) => ({ kind, name, inTime, late }));
  const kinds = every.filter(({ inTime, late }) => inTime.total + late.total > 0);
  /** @param {"inTime"|"late"} part */
  const together = (part) => kinds.reduce((sum, replies) => sum.withThoseOf(replies[part]), new Histogram());
  return { all: { inTime: together("inTime"), late: together("late") }, kinds };
}
