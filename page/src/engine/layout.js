/** Where the fields of the C library's structures are, in octets (c/include/port1.h). */
export const LINE = { size: 360, place: 16, count: 80, octets: 88 };
export const REPORT = { size: 24, kind: 0, cause: 4, first: 8, past: 16 };
export const ENTRY = { size: 8, known: 0, length: 1, answered: 2, window: 4 };
export const PAIR = { size: 24, first: 0, past: 8, waits: 16, station: 20, type: 21 };
export const SEEN = {
  size: 40,
  standing: 0,
  verdict: 4,
  first: 8,
  past: 16,
  stray: 24,
  station: 28,
  type: 30,
  commandStation: 31,
  commandType: 32,
};

export const WIRE = { size: 4, used: 0, number: 1, inverted: 2 };
export const WIRES = { size: 16, firstClock: 0, firstData: 4, secondClock: 8, secondData: 12 };
export const ARRIVAL = { size: 2, line: 0, bit: 1 };
export const OCCURRENCES = { size: 24, count: 0, first: 8, last: 16 };
export const GAP = { size: 16, length: 0, from: 8 };
export const LINE_FACTS = {
  size: 144,
  clockChanges: 0,
  dataChanges: 24,
  dataChangesHigh: 48,
  bits: 72,
  gap: 96,
  jumps: 120,
};
export const TAP = {
  size: 384,
  samples: 0,
  first: 16,
  second: 160,
  firstClock: 304,
  firstData: 312,
  secondClock: 320,
  secondData: 328,
};

export const CLOCKS = { size: 864, first: 0, second: 360 };
export const REST = { size: 24 };

/** How many types there are. */
export const TYPES = 256;

/** The longest frame that there is, and the octets of address, control and type, which a length does not count. */
export const MOST_OCTETS = 256;
export const BEFORE_LENGTH = 3;
