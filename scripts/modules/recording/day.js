/** A date and a time of day (ISO 8601), with a fraction of a second and a zone where it has these. */
const TIME = /^(\d{4}-\d\d-\d\d)[T ](\d\d:\d\d:\d\d)(?:[.,](\d+))?(Z|[-+]\d\d:?\d\d)?$/;

/** @param {string} text */
export const isTimeOfDay = (text) => TIME.test(text.trim());

/** Times of day as nanoseconds from the first of them on. */
export class DayTimes {
  /** @type {number|null} the first second, in milliseconds of an epoch */
  first = null;

  /**
   * @param {string} text
   * @returns {number} not a number where the text is no time of day
   */
  of(text) {
    const [, day, time, fraction = "", zone = "Z"] = TIME.exec(text.trim()) ?? [];
    const second = Date.parse(`${day}T${time}${zone}`);
    this.first ??= second;
    return (second - this.first) * 1e6 + Number(fraction.slice(0, 9).padEnd(9, "0"));
  }
}
