// Which keys and heads of tables may stand after others.

/** @typedef {import("./places.js").Place} Place */

/**
 * A table, in the order of the text.
 * @typedef {Map<string, unknown>} Table
 */

/**
 * The last part of a key.
 * @param {readonly string[]} key
 */
const lastOf = (key) => key[key.length - 1];

// How a table came about: a head passed through it, dotted keys did, or a head named it; and an array of tables whose
// heads have double brackets. What has none of these is a value, to which nothing can be added.
const PASSED = "passed";
const DOTTED = "dotted";
const NAMED = "named";
const ELEMENTS = "elements";

/** @typedef {"passed"|"dotted"|"named"|"elements"} Origin */

/** @param {unknown} value */
const isCollection = (value) => value instanceof Map || Array.isArray(value);

/** The tables of a document, or of an inline table, as they grow. */
export class Tables {
  /** @param {import("./source.js").Source} source */
  constructor(source) {
    this.source = source;
    /** @type {Table} */
    this.root = new Map();
    /** @type {Map<unknown, Origin>} of tables, and of arrays of tables */
    this.origins = new Map();
  }

  /**
   * A new table at a key.
   * @param {Table} table
   * @param {string} key
   * @param {Origin} origin
   */
  make(table, key, origin) {
    /** @type {Table} */
    const made = new Map();
    table.set(key, made);
    this.origins.set(made, origin);
    return made;
  }

  /**
   * The table into which a pair goes, found along the parts of its key before the last.
   * @param {Table} section
   * @param {readonly string[]} head that names the section
   * @param {readonly string[]} parents
   * @param {readonly string[]} frozen the key that is named where a value is in the way
   * @returns {Table}
   */
  alongDots(section, head, parents, frozen) {
    let table = section;
    for (const [at, part] of parents.entries()) {
      const found = /** @type {Table} */ (table.get(part) ?? this.make(table, part, DOTTED));
      const origin = this.origins.get(found);
      if (origin === NAMED || origin === ELEMENTS) {
        throw this.source.fault(`Cannot redefine namespace ${[...head, ...parents.slice(0, at + 1)].join(".")}`);
      }
      if (origin === undefined) throw this.inTheWay(found, frozen);
      this.origins.set(found, DOTTED);
      table = found;
    }
    return table;
  }

  /**
   * The fault where a value is in the way.
   * @param {unknown} value
   * @param {readonly string[]} key
   */
  inTheWay(value, key) {
    const isFrozen = isCollection(value);
    const frozen = `Cannot mutate immutable namespace ${key.join(".")}`;
    return this.source.fault(isFrozen ? frozen : "Cannot overwrite a value");
  }

  /**
   * The value of a key.
   * @param {Table} section
   * @param {readonly string[]} head
   * @param {readonly string[]} key
   * @param {unknown} value
   */
  define(section, head, key, value) {
    const parents = key.slice(0, -1);
    const table = this.alongDots(section, head, parents, [...head, ...parents]);
    if (table.has(lastOf(key))) throw this.source.fault("Cannot overwrite a value");
    table.set(lastOf(key), value);
  }

  /**
   * The value of a key of an inline table.
   * @param {readonly string[]} key
   * @param {unknown} value
   */
  defineInline(key, value) {
    const table = this.alongDots(this.root, [], key.slice(0, -1), key);
    const last = lastOf(key);
    if (table.has(last)) {
      const before = table.get(last);
      const isFrozen = isCollection(before) && !this.origins.has(before);
      throw isFrozen ? this.inTheWay(before, key) : this.source.fault(`Duplicate inline table key ${last}`);
    }
    table.set(last, value);
  }

  /**
   * The table in which the last part of a head is, and where it stands.
   * @param {readonly string[]} parents
   * @param {Place} place of the document
   * @param {string} frozen what is said where a collection is in the way that is a value
   */
  alongHead(parents, place, frozen) {
    let [table, at] = [this.root, place];
    for (const part of parents) {
      const found = table.get(part) ?? this.make(table, part, PASSED);
      const origin = this.origins.get(found);
      if (origin === undefined) throw this.source.fault(isCollection(found) ? frozen : "Cannot overwrite a value");
      const elements = /** @type {Table[]} */ (found);
      at = at.part(part);
      at = origin === ELEMENTS ? at.part(elements.length - 1) : at;
      table = origin === ELEMENTS ? elements[elements.length - 1] : /** @type {Table} */ (found);
    }
    return { table, at };
  }

  /**
   * The table that a head names.
   * @param {readonly string[]} key
   * @param {Place} place of the document
   * @param {number} line
   */
  head(key, place, line) {
    const twice = `Cannot declare ${key.join(".")} twice`;
    const { table, at } = this.alongHead(key.slice(0, -1), place, twice);
    const last = lastOf(key);
    const found = /** @type {Table} */ (table.get(last) ?? this.make(table, last, PASSED));
    if (this.origins.get(found) !== PASSED) {
      throw this.source.fault(isCollection(found) ? twice : "Cannot overwrite a value");
    }
    this.origins.set(found, NAMED);
    const own = at.part(last);
    own.note(line);
    return { table: found, place: own };
  }

  /**
   * A new element of an array of tables.
   * @param {readonly string[]} key
   * @param {Place} place of the document
   * @param {number} line
   */
  element(key, place, line) {
    const immutable = `Cannot mutate immutable namespace ${key.join(".")}`;
    const { table, at } = this.alongHead(key.slice(0, -1), place, immutable);
    const last = lastOf(key);
    if (!table.has(last)) {
      table.set(last, []);
      this.origins.set(table.get(last), ELEMENTS);
    }
    const found = /** @type {Table[]} */ (table.get(last));
    const origin = this.origins.get(found);
    if (origin !== ELEMENTS) {
      const isFrozen = isCollection(found) && origin === undefined;
      throw this.source.fault(isFrozen ? immutable : "Cannot overwrite a value");
    }
    /** @type {Table} */
    const element = new Map();
    found.push(element);
    at.part(last).note(line);
    const own = at.part(last).part(found.length - 1);
    own.note(line);
    return { table: element, place: own };
  }
}
