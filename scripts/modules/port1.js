/** Numbers of Port 1 (NEMA TS 2) and of the frames on it. */

/** The bits in a second. */
export const RATE = 153600;

/** The second octet of a frame with a type. */
export const CONTROL = 0x83;

/** How much higher the type of an answer is than that of its command. */
export const ANSWER = 128;

/** Address, control, type and check: the octets of a typed frame that its length in a dictionary does not count. */
export const AROUND = 5;

/** The address of all stations (ISO/IEC 13239, all-station address). */
export const ALL_STATIONS = 255;

/** After so many bits of the controller without one of the stations their line is brought to rest, unless it is said. */
export const SILENCE = 40;
