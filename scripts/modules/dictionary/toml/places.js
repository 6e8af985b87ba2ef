/** On which line a part of a document stands, and where its own parts do. A line of 0 says that none is known. */
export class Place {
  constructor() {
    this.line = 0;
    /** @type {Map<string|number, Place>} by keys, and by places in arrays, counted from 0 */
    this.parts = new Map();
  }

  /**
   * The place of a part, which is made where there is none yet.
   * @param {string|number} part
   * @returns {Place}
   */
  part(part) {
    let found = this.parts.get(part);
    if (found === undefined) {
      found = new Place();
      this.parts.set(part, found);
    }
    return found;
  }

  /**
   * Notes the line where a part begins, unless it began before.
   * @param {number} line
   */
  note(line) {
    this.line ||= line;
  }

  /**
   * The line of a part, or of the table that it would be in; 1 where there is none either.
   * @param {readonly (string|number)[]} path
   * @returns {number}
   */
  lineOf(path) {
    let line = 1;
    /** @type {Place|undefined} */
    let place = this;
    for (const part of path) {
      place = place.parts.get(part);
      if (place === undefined) break;
      line = place.line || line;
    }
    return line;
  }
}
