import { Fault } from "../fault.js";
import { listed } from "../text.js";
import { withSingleSpaces } from "./text.js";

/**
 * Which of the channels has a name; a number is the channel's number where none has it as its name.
 * @param {string} name
 * @param {string[]} names
 * @returns {number}
 */
export function positionOf(name, names) {
  const wanted = withSingleSpaces(name);
  const found = [...names.keys()].filter((at) => withSingleSpaces(names[at]) === wanted);
  if (found.length === 0 && /^[0-9]+$/.test(wanted) && Number(wanted) < names.length) return Number(wanted);
  if (found.length !== 1) {
    const count = found.length === 0 ? "no channel has" : `${found.length} channels have`;
    throw new Fault(`${count} the name ${wanted}; there are: ${listed(names)}`);
  }
  return found[0];
}
