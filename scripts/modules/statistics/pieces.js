/**
 * Damaged pieces of one sort: the line of the bus (null in a listing of one line), the cause, and how many.
 * @typedef {{line: 1|2|null, cause: string, count: number}} Pieces
 */

/**
 * Numbers of damaged pieces by line and cause, and what they were at earlier moments.
 *
 * A snapshot is shared by all moments between two damaged pieces, so that neither a piece nor a moment costs more than
 * a few steps.
 */
export class Tally {
  constructor() {
    /** @type {Pieces[]} the sorts in the order in which they were first seen */
    this.sorts = [];
    this.total = 0;
    /** @type {number[]|null} the counts of the sorts, until the next piece */
    this.snapshot = [];
  }

  /**
   * @param {1|2|null} line
   * @param {string} cause
   */
  add(line, cause) {
    this.sortOf(line, cause).count += 1;
    this.total += 1;
    this.snapshot = null;
  }

  /**
   * @param {1|2|null} line
   * @param {string} cause
   * @returns {Pieces}
   */
  sortOf(line, cause) {
    for (const sort of this.sorts) {
      if (sort.line === line && sort.cause === cause) return sort;
    }
    const sort = { line, cause, count: 0 };
    this.sorts.push(sort);
    return sort;
  }

  /** @returns {number[]} the counts as they are now */
  now() {
    this.snapshot ??= this.sorts.map((sort) => sort.count);
    return this.snapshot;
  }

  /**
   * What came between two moments.
   * @param {number[]} before
   * @param {number[]} after
   * @returns {Pieces[]}
   */
  between(before, after) {
    const found = after.map((count, at) => ({ ...this.sorts[at], count: count - (before[at] ?? 0) }));
    return found.filter((sort) => sort.count !== 0);
  }
}

/**
 * How many damaged pieces there are.
 * @param {Pieces[]} pieces
 * @returns {number}
 */
export const sumOf = (pieces) => pieces.reduce((sum, sort) => sum + sort.count, 0);

/** @param {Pieces} one @param {Pieces} other */
function inOrder(one, other) {
  return other.count - one.count || (one.cause < other.cause ? -1 : Number(one.cause > other.cause));
}

/**
 * Damaged pieces by line and cause, as `line 1: 3 fcs, 1 abort; line 2: 1 short`.
 * @param {Pieces[]} pieces
 * @returns {string}
 */
export function piecesNamed(pieces) {
  const texts = [];
  for (const line of [0, 1, 2]) {
    const causes = pieces.filter((sort) => (sort.line ?? 0) === line).sort(inOrder);
    if (causes.length > 0) {
      const where = line === 0 ? "" : `line ${line}: `;
      texts.push(where + causes.map(({ count, cause }) => `${count} ${cause}`).join(", "));
    }
  }
  return texts.join("; ");
}
