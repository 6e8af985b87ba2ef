/** What the page says of warnings and faults: in its own words, and what to do. */

/** @typedef {import("../../../scripts/modules/recording/doubts.js").Warning} Warning */
/** @typedef {{ text: string, cure: string, act: "edge"|"invert"|"wires"|"second"|"" }} Words */

const ON = "Is it the right channel, and is its probe on?";
const INVERTED = "Its two wires may be exchanged, or the analyser inverts it.";
const SLOWER = "If the analyser dropped samples, record at a lower rate, or for a shorter time.";
const AGAIN = "Save the recording again, or record again.";

/**
 * Of a channel with a name: what is said, how to mend it, and what the page can do.
 * @type {Record<string, (name: string, warning: Warning) => [said: string, cure?: string, act?: Words["act"]]>}
 */
const WARNINGS = {
  cut: () => [
    "The file ends in the middle of a line: it was cut off, or is still being written. All before that is shown.",
    "When the recording is done, save it whole and drop it again.",
  ],
  flat: (name) => [`${name} never changes, but data is expected there.`, ON, "wires"],
  inverted: (name) => [`${name} rests at 0, where a line at rest is 1.`, INVERTED, "invert"],
  still: (name) => [`${name} never changes, but a clock is expected there.`, ON, "wires"],
  rising: (name) => [`The data changes just where a bit is taken, at the rising edges of ${name}.`, INVERTED, "edge"],
  falling: (name) => [`The data changes just where a bit is taken, at the falling edges of ${name}.`, "", "edge"],
  own: (name) => [`${name} does not change with the clock: it has a clock of its own.`, "Say which channel that is.", "wires"],
  gap: (name, { stood }) => [
    stood === undefined
      ? `${name} stops, and times with it.`
      : `${name} stops, and times with it: in the end they are ${stood.toFixed(3)} s too early.`,
    "Is that the controller, or its wire?",
    "second",
  ],
  end: (name) => [`${name} stops, and does not go on until the recording ends.`, "Is its wire loose, or is nothing sent?", "second"],
  turned: (name) => [
    `The data changes just where a bit is taken, at the edges of ${name}, and not so on the other line.`,
    "Exchange the two wires of its pair.",
  ],
  slow: (name) => [`${name} has fewer than four samples a bit.`, "Record 1 million samples a second or more."],
  samples: (name) => [`The analyser lost samples: ${name} is out of step.`, "Record at a lower rate, or for a shorter time.", "second"],
  piece: (name) => [`The recording lacks ${name}.`, AGAIN, "second"],
  checksum: (name) => [`The checksum of ${name} is wrong: samples are damaged.`, AGAIN, "second"],
  rounded: (name) => [`Rows of ${name} have the time of the row before them.`, "Export their times with all digits."],
  lost: (name) => [`The edges of ${name} jump: its wire has glitches, or samples were lost.`, SLOWER, "second"],
};

/** What is said of wires in each other's place, as the script writes it. */
export const EXCHANGED = new Set(["crossed", "clocks", "pairs", "data"]);

/**
 * Where in the file a warning is about, in places, as far as that is known. Once a clock stood still, places are behind
 * the recording's own seconds.
 * @param {Warning} warning
 * @param {number} rate
 */
export function placeOf({ second, place, stretches: [stretch] = [] }, rate) {
  return place ?? stretch?.first ?? (second === null ? null : second * rate);
}

/**
 * @param {Warning} warning
 * @param {import("./clock.js").Clock} clock
 * @returns {Words}
 */
export function wordsOf(warning, clock) {
  const { sort, name, count, text } = warning;
  const [said, cure = "", act = ""] = WARNINGS[sort]?.(name, warning) ?? [text, "", EXCHANGED.has(sort) ? "wires" : ""];
  const place = placeOf(warning, clock.rate);
  const times = count > 1 ? `${count} times, ${sort === "gap" ? "for longest" : "first"} at ` : "At ";
  const when = place === null ? (count > 1 ? ` ${count} times.` : "") : ` ${times}${clock.moment(place, clock.rate)}.`;
  return { text: said + when, cure, act: act === "second" && place === null ? "" : act };
}

/**
 * What a file is that has a fault, by port1's text for it.
 * @type {[RegExp, string][]}
 */
const FAULTS = [
  [/^capture: short head$/, "The file is cut off within its first 16 octets"],
  [/^capture: short body$/, "The file is cut off: it has fewer bits than it says"],
  [/^capture: octets after the end$/, "The file goes on after the bits that it says it has"],
  [/^capture: wrong magic$/, "This is no packed capture of so many lines"],
  [/^capture: octet \d+ is no bit$/, "The text has something else than bits"],
  [/^the file changed while/, "The file is still being written, or was moved: drop it again when it is done"],
  [/^the archive|in the archive/, "The session is cut off or damaged: save it again"],
  [/has no known level$/, "The data has no known level there"],
];

/**
 * What keeps a file from being read, in the page's words where it has any.
 * @param {string} fault
 */
export function whyNot(fault) {
  const [, words] = FAULTS.find(([pattern]) => pattern.test(fault)) ?? [null, fault];
  return words;
}

/** @param {string} fault */
export const isOfDictionary = (fault) => fault.startsWith("dictionary: ");

/** @param {string} fault @param {boolean} hasLines whether something stands before it */
export function faultWords(fault, hasLines) {
  const [, words] = FAULTS.find(([pattern]) => pattern.test(fault)) ?? [null, "The file has a fault"];
  return `${words}; ${hasLines ? "what stands before it is shown" : "nothing stands before it"}. port1: ${fault}`;
}
