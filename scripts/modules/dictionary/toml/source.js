import { Fault } from "../../fault.js";

const SPACES = /[ \t]*/y;
const SPACES_AND_ENDS = /[ \t\n]*/y;

// What a comment, and a text in one line, must not have in it.
const CONTROLS = /[\0-\x08\x0a-\x1f\x7f]/;

/** How deep arrays and inline tables may lie in one another, and how many parts a key may have: as `port1` has it. */
const DEEPEST = 80;
export const MOST_KEY_PARTS = 80;

/** Why a text is no TOML. Lines and columns, which count characters, begin with 1. */
export class TomlFault extends Fault {
  /**
   * @param {string} text
   * @param {number} line
   * @param {number} column
   */
  constructor(text, line, column) {
    super(text);
    this.line = line;
    this.column = column;
  }
}

/** A text, and how far it has been read. Line ends are LF within. */
export class Source {
  /** @param {string} text which may begin with a byte order mark */
  constructor(text) {
    this.text = text.replace(/^\ufeff/, "").replaceAll("\r\n", "\n");
    this.at = 0;
    this.room = DEEPEST; // for arrays and inline tables in one another
    this.counted = { at: 0, line: 1 }; // up to where lines have been counted
  }

  /** @returns {string} the next character, or nothing at the end */
  next() {
    return this.text.charAt(this.at);
  }

  /** @param {string} text */
  startsWith(text) {
    return this.text.startsWith(text, this.at);
  }

  /**
   * Passes over a text, if it comes next.
   * @param {string} text
   * @returns {boolean} whether it did
   */
  takes(text) {
    const found = this.startsWith(text);
    this.at += found ? text.length : 0;
    return found;
  }

  /**
   * What a pattern finds here, which is then passed.
   * @param {RegExp} pattern with the flag `y`
   * @returns {RegExpExecArray|null}
   */
  match(pattern) {
    pattern.lastIndex = this.at;
    const found = pattern.exec(this.text);
    this.at += found === null ? 0 : found[0].length;
    return found;
  }

  /** Passes over spaces and tabs. */
  skipSpaces() {
    this.match(SPACES);
  }

  /** Passes over a comment, if there is one, up to the end of its line. */
  skipComment() {
    if (this.takes("#")) this.skipTo("\n", CONTROLS, false);
  }

  /** Passes over white space, line ends and comments. */
  skipLines() {
    let before;
    do {
      before = this.at;
      this.match(SPACES_AND_ENDS);
      this.skipComment();
    } while (this.at > before);
  }

  /**
   * Goes up to a text, over characters that are allowed.
   * @param {string} end
   * @param {RegExp} forbidden
   * @param {boolean} isNeeded whether the text has to come
   * @returns {string} what was passed
   */
  skipTo(end, forbidden, isNeeded) {
    const begin = this.at;
    const found = this.text.indexOf(end, begin);
    this.at = found < 0 ? this.text.length : found;
    if (found < 0 && isNeeded) throw this.fault(`Expected ${end}`);
    const passed = this.text.slice(begin, this.at);
    const bad = passed.search(forbidden);
    if (bad >= 0) {
      this.at = begin + bad;
      throw this.fault(`Found invalid character ${JSON.stringify(this.next())}`);
    }
    return passed;
  }

  /**
   * The line of a place in the text, not before the place that was asked for last.
   * @param {number} at
   * @returns {number}
   */
  lineAt(at) {
    const { counted } = this;
    for (let end = this.text.indexOf("\n", counted.at); end >= 0 && end < at; ) {
      counted.at = end + 1;
      counted.line += 1;
      end = this.text.indexOf("\n", counted.at);
    }
    return counted.line;
  }

  /**
   * A fault where the text has been read up to.
   * @param {string} what
   * @returns {TomlFault}
   */
  fault(what) {
    const line = this.lineAt(this.at);
    const column = [...this.text.slice(this.text.slice(0, this.at).lastIndexOf("\n") + 1, this.at)].length + 1;
    const where = this.at < this.text.length ? `line ${line}, column ${column}` : "end of document";
    return new TomlFault(`${what} (at ${where})`, line, column);
  }
}
