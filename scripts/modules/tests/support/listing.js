// A reader of the lines of `port1 list`, for the tests, by a regular expression.

const LINE = new RegExp(
  "^(?:([12]) )?(\\d+) (\\d+) (?:" +
    "frame ((?:[0-9a-f]{2})+)(?: (?:station \\d+ type \\d+ (\\S+)|untyped|control \\d+))?" +
    "|damaged (short|unaligned|fcs|unstuffed)" +
    "|(overlong|abort|idle|open)" +
    "|(stray|answered|missing|spoilt|late|pending) station (\\d+) type (\\d+)" +
    ")$",
);

function frameRow(row, digits, name) {
  const octets = new Uint8Array(digits.match(/../g).map((pair) => Number.parseInt(pair, 16)));
  const type = octets.length >= 5 && octets[1] === 0x83 ? octets[2] : null;
  return { ...row, kind: "frame", octets, station: octets[0], type, name };
}

/**
 * The row of a line, without the time to the answer.
 * @param {string} text
 */
export function rowOf(text) {
  const found = LINE.exec(text);
  if (found === null) throw new Error(`no line of a listing: ${text}`);
  const [, number, first, past, digits, name, cause, bare, kind, station, type] = found;
  const line = number === undefined ? null : Number(number);
  const row = {
    ...{ line, first: Number(first), past: Number(past), kind: bare ?? "damaged", octets: null },
    ...{ station: null, type: null, name: "", cause: cause ?? "", replyBits: null },
  };
  if (digits !== undefined) return frameRow(row, digits, name ?? "");
  return kind === undefined ? row : { ...row, kind, station: Number(station), type: Number(type) };
}

function isAnswerTo(before, verdict) {
  return before.kind === "frame" && before.station === verdict.station && before.type === verdict.type + 128;
}

/**
 * The rows of a listing.
 * @param {string} listing
 * @returns {import("../../statistics/bus.js").Row[]}
 */
export function rowsOf(listing) {
  const rows = [];
  for (const text of listing.split("\n").slice(0, -1)) {
    const row = rowOf(text);
    const before = rows.at(-1);
    if (before !== undefined && (row.kind === "answered" || row.kind === "late") && isAnswerTo(before, row)) {
      row.replyBits = before.first - row.past;
    }
    rows.push(row);
  }
  return rows;
}
