import { Fault } from "../fault.js";

const FORM = /^(\d{4}-\d\d-\d\dT\d\d:\d\d(?::\d\d)?)((?<=:\d\d:\d\d)\.\d+)?(Z|[+-]\d\d:\d\d)?$/;

const MINUTE = 60000;

/** What a number of seconds may lack of a whole microsecond that it stands for, in microseconds: a bit has 6.5. */
const LACKING = 0.005;

/**
 * How far a zone is ahead of UTC, in milliseconds; with no zone, that of this computer at some time.
 * @param {string|undefined} zone
 * @param {number} time
 */
function shiftOf(zone, time) {
  if (zone === undefined) return -MINUTE * new Date(time).getTimezoneOffset();
  if (zone === "Z") return 0;
  const minutes = 60 * Number(zone.slice(1, 3)) + Number(zone.slice(4));
  return (zone[0] === "-" ? -MINUTE : MINUTE) * minutes;
}

/** The time of day at which place 0 of a listing was, and so that of each place. */
export class DayTime {
  /**
   * @param {string} text as ISO 8601 has it: with Z or an offset, or else a time of this computer
   * @param {number} [late] how many seconds after it place 0 was
   */
  constructor(text, late = 0) {
    const [, time, fraction = "", zone] = FORM.exec(text) ?? [];
    this.begin = Date.parse(`${time}${zone ?? ""}`) + 1000 * (Number(`0${fraction}`) + late); // milliseconds since 1970
    if (Number.isNaN(this.begin)) throw new Fault(`${JSON.stringify(text)} is no time as 2026-11-27T03:00:00Z`);
    this.zone = zone;
  }

  /** @param {number} seconds @param {number} [digits] of a second, at most 6 */
  iso(seconds, digits = 3) {
    const begin = Math.floor(this.begin);
    const micros = Math.floor(1e6 * seconds + Math.round(1000 * (this.begin - begin)) + LACKING);
    const passed = Math.floor(micros / 1000);
    const time = begin + passed;
    const text = new Date(time + shiftOf(this.zone, time)).toISOString().slice(0, -1);
    const beyond = String(micros - 1000 * passed).padStart(3, "0");
    return `${text}${beyond}`.slice(0, digits === 0 ? -7 : digits - 6 || undefined);
  }

  /**
   * Date and time of day after so many seconds.
   * @param {number} seconds
   */
  full(seconds) {
    return this.iso(seconds).replace("T", " ") + (this.zone === "Z" ? " UTC" : "");
  }

  /**
   * The time of day, on another day than after some seconds with its date.
   * @param {number} seconds
   * @param {number} [known] the seconds after which the day is known
   * @param {number} [digits] of a second, at most 6
   */
  of(seconds, known = 0, digits = 3) {
    const [date, time] = this.iso(seconds, digits).split("T");
    return this.iso(known).startsWith(date) ? time : `${date} ${time}`;
  }
}
