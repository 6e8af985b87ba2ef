/* port1.h: the frames of a synchronous HDLC line (ISO/IEC 13239, 16-bit frame check) from its bits, these from
 * samples, and bits from frames, in memory of the caller's. Link libport1_c.a or libport1.so. C99 or later, C++11 or
 * later.
 *
 * What is proved, for every content of the memory that a call is given:
 *   - a call is safe and ends;
 *   - after port1_line_init returned PORT1_OK, and as long as only these calls write the line, the reports
 *     are those of the definition (crates/bus_line/specs/Report.antt) for the bits taken so far: all of
 *     them, in order, each once, given by the call that takes the bit that decides it, however the bits are
 *     cut into calls;
 *   - the kind and the cause of each report are numbers that are named below, and the cause is 0 unless the kind
 *     is PORT1_DAMAGED;
 *   - longest and origin stay as they were given;
 *   - after port1_sender_init, and as long as only these calls write the sender, each call that returns
 *     PORT1_OK puts the bits of the definition (crates/bus_line/specs/Line.antt) into the octets, from the
 *     bit `*at` on, and touches no other bit;
 *   - after port1_pair_init, and as long as only port1_pair_take writes the pairing, with one table, each call
 *     that returns PORT1_OK gives the standing, the verdict and the stray of the definitions
 *     (crates/bus_pairing/specs/Seen.antt) for the reports taken so far, by numbers that are named below;
 *   - after port1_tap_init, and as long as only these calls write the tap, the arrivals are those of the definition
 *     (crates/bus_tap/specs/Stopped.antt) for the samples taken so far: all of them, in order, each once; and its
 *     facts are those of crates/bus_tap/specs/Facts.antt;
 *   - after port1_rest_init, and as long as only port1_rest_push and port1_rest_feed write the rule, the second line
 *     comes to rest just where the definition (crates/bus_tap/specs/Rested.antt) says, for the arrivals so far;
 *   - after port1_clocks_init, and as long as only port1_clocks_push and port1_clocks_feed write the decoders, the reports
 *     are those of the definition (crates/bus_tap/specs/Arrival.antt) for the arrivals so far: all of them, in order, each once;
 *   - where a call refuses, with PORT1_BAD_STATE, PORT1_BAD_ARGUMENT, PORT1_BAD_LENGTH or PORT1_NO_ROOM,
 *     nothing has changed but what is said there.
 *
 * A line of zeros, and a line, tap or rule whose numbers are out of range, is refused as PORT1_BAD_STATE. With any
 * other content, as of one that was damaged or never made, a call is safe and ends all the same, but what it tells
 * means nothing.
 *
 * The library has no writable data, asks for no memory and calls nothing but memcpy and memset, and on 32-bit
 * targets memmove and what the compiler's own library has for 64-bit numbers. As it shares nothing between calls,
 * calls on different objects may run at the same time, in threads and in interrupts. Calls that write the same object
 * may not: a line that an interrupt feeds is neither fed nor read elsewhere, unless that interrupt is off.
 *
 * Numbers of octets and of bits are uint64_t on every target, so a 32-bit one passes them as 64-bit numbers.
 *
 * What is not proved:
 *   - this header. It is written by hand; the asserts at its end fix the sizes and offsets worked out from
 *     the `repr(C)` declarations in crates/port1_c/src, and tests compare both, field by field;
 *   - the C compiler's side of a call, and any target but those that the library was built and proved for.
 *
 * The duties of the caller, which no call can check:
 *   - a pointer is not null, is aligned for its type, and points to as many objects as are said. Where that is
 *     none, because `count` or `length` is 0, the pointer may be null;
 *   - every object that a pointer names was written once, with any values (static storage, an initialiser or
 *     memset): also the line for port1_line_init, and also a report or a number that a call only writes;
 *   - what a call writes overlaps nothing else that it is given;
 *   - no object that a call writes is in use by another call at the same time. */
#ifndef PORT1_H
#define PORT1_H

#include <stddef.h>
#include <stdint.h>

#ifdef __cplusplus
extern "C" {
#endif

/* The version of this header and of the library that came with it. */
#define PORT1_VERSION "3.1.0"
#define PORT1_VERSION_MAJOR 3
#define PORT1_VERSION_MINOR 1
#define PORT1_VERSION_PATCH 0

/* What a call returns. */
enum {
    PORT1_OK = 0,
    PORT1_BAD_LENGTH = 1,   /* the longest frame is not of 3 to 256 octets; a frame to send not of 2 to 256 */
    PORT1_PLACE_LIMIT = 2,  /* a bit's place would be 2^60 or later, an origin is past 2^60, or there would be more
                             * than 2^60 samples */
    PORT1_BAD_STATE = 3,    /* the memory holds no decoder, no sender, no tap or no rule */
    PORT1_BAD_ARGUMENT = 4, /* what is asked for is not in the octets, or there is no such line, report or width */
    PORT1_NO_ROOM = 5       /* there is no room for the bits */
};

/* The kind of a report. */
enum {
    PORT1_NONE = 0,     /* no report */
    PORT1_FRAME = 1,    /* a good frame */
    PORT1_DAMAGED = 2,  /* a piece between two flags that is no frame */
    PORT1_OVERLONG = 3, /* a piece with more data than the longest frame and its check */
    PORT1_ABORT = 4,    /* a piece that seven 1 bits ended */
    PORT1_IDLE = 5      /* the first fifteen 1 bits of an idle line */
};

/* The cause of PORT1_DAMAGED. */
enum {
    PORT1_UNSTUFFED = 1, /* five 1 bits right before the closing flag, where a sender inserts a 0 */
    PORT1_SHORT = 2,     /* under 32 data bits: address, control octet and check do not fit */
    PORT1_UNALIGNED = 3, /* the data are not whole octets */
    PORT1_FCS = 4        /* the frame check fails */
};

/* A decoder: 360 octets, wherever you like. It holds no pointer, so it may be copied and moved.
 * Read longest, origin, place, count and octets; leave the rest alone, and write nothing. */
struct port1_line {
    uint64_t longest; /* the longest frame in octets, address through information */
    uint64_t origin;  /* the place of the first bit */
    uint64_t place;   /* the place of the next bit */
    uint64_t settles_at, folded, stored, assembled, data_bits, partial, last_bits;
    uint32_t count;      /* of the octets that follow */
    uint16_t spare, check;
    uint8_t octets[272]; /* after PORT1_FRAME the first `count`: address, control, information and the two
                          * of the frame check, until the next call that takes bits */
};

/* A report. Its places count bits from the origin of the line. */
struct port1_report {
    uint32_t kind;  /* PORT1_NONE to PORT1_IDLE */
    uint32_t cause; /* of PORT1_DAMAGED, and else 0 */
    uint64_t first; /* the place of the first bit */
    uint64_t past;  /* the place just past the last bit */
};

/* Makes a decoder that took no bit, whatever the memory holds.
 * longest: the longest frame in octets, address through information, 3 to 256, else PORT1_BAD_LENGTH.
 * origin: the place of the first bit, at most 2^60, else PORT1_PLACE_LIMIT.
 * Where it does not return PORT1_OK, nothing has changed. */
uint32_t port1_line_init(struct port1_line *line, uint64_t longest, uint64_t origin);

/* Takes bits `*at` to `end` - 1 of the octets, the lowest bit of each octet first, up to the first that
 * decides a report. `*at` is then the next bit to take, and `*report` what the last bit decided.
 *
 * PORT1_OK: with PORT1_NONE in the report all bits were taken, and `*at` is `end`; else call again.
 * PORT1_PLACE_LIMIT: the bits before place 2^60 were taken, and decided nothing.
 * PORT1_BAD_ARGUMENT: just where `*at` > `end` or `end` > 8 * `count`. Nothing has changed.
 * PORT1_BAD_STATE: the memory holds no decoder. Nothing has changed. */
uint32_t port1_line_feed(struct port1_line *line, const uint8_t *octets, uint64_t count, uint64_t *at, uint64_t end,
                         struct port1_report *report);

/* Takes bits `*at` to 7 of one octet, bit 0 being the highest, up to the first that decides a report: for controllers
 * that have the first bit of the line highest. `*at` is then the next bit to take, 8 where there is none, and `*report`
 * what the last bit decided.
 *
 * It returns what port1_line_feed returns, PORT1_BAD_ARGUMENT just where `*at` > 8. */
uint32_t port1_line_feed_high_first(struct port1_line *line, uint8_t octet, uint64_t *at, struct port1_report *report);

/* Takes one bit: 0, or any other number for a 1. `*report` is what it decided.
 * PORT1_PLACE_LIMIT: its place would be 2^60. PORT1_BAD_STATE: the memory holds no decoder.
 * Where it does not return PORT1_OK, nothing has changed. */
uint32_t port1_line_push(struct port1_line *line, uint8_t bit, struct port1_report *report);

/* Says whether a piece has begun that nothing has ended yet: `*has_begun` is then 1 and `*first` the place of
 * its first bit; else `*has_begun` is 0 and `*first` as it was.
 * PORT1_BAD_STATE: the memory holds no decoder. Nothing has changed. */
uint32_t port1_line_open(const struct port1_line *line, uint8_t *has_begun, uint64_t *first);

/* A sender: 4 octets. 0 is one that sent nothing yet, so one of static storage needs no port1_sender_init.
 * It holds no pointer, so it may be copied. Write nothing into it. */
struct port1_sender {
    uint32_t behind_flag; /* 1 where a flag was sent last, which may open a frame, and else 0 */
};

/* The most bits that port1_send_frame puts: 256 octets and two of the check, a 0 inserted after each five
 * ones, and two flags. */
#define PORT1_FRAME_BITS 2492

/* Makes a sender that sent nothing yet, whatever the memory holds. Returns PORT1_OK. */
uint32_t port1_sender_init(struct port1_sender *sender);

/* Each of these puts the bits of one call into octets, the lowest bit of each octet first, from bit
 * `*at` on. `*at` is then the bit after them, and `*bits` how many they are. All other bits of the octets
 * stay as they are. To reuse a buffer that has gone out:
 *     if (at % 8 != 0) octets[0] = octets[at / 8];
 *     at %= 8;
 *
 * port1_send_flag: a flag, 8 bits.
 * port1_send_idle: fifteen ones, which abort a frame and make the line idle.
 * port1_send_frame: a frame of `length` octets, address through information, 2 to 256; its check, the zeros
 * that are inserted and its flags are added. The opening flag is left out where a flag was sent last: one
 * flag closes a frame and opens the next.
 *
 * PORT1_BAD_ARGUMENT: just where `*at` > 8 * `count`. Nothing has changed.
 * PORT1_BAD_STATE: the memory holds no sender. Nothing has changed.
 * PORT1_BAD_LENGTH: `length` is not 2 to 256. Nothing has changed.
 * PORT1_NO_ROOM: just where `*at` + `*bits` > 8 * `count`. Nothing has changed but `*bits`, which says how
 * many they would be. */
uint32_t port1_send_flag(struct port1_sender *sender, uint8_t *octets, uint64_t count, uint64_t *at, uint64_t *bits);
uint32_t port1_send_idle(struct port1_sender *sender, uint8_t *octets, uint64_t count, uint64_t *at, uint64_t *bits);
uint32_t port1_send_frame(struct port1_sender *sender, const uint8_t *frame, uint64_t length, uint8_t *octets,
                          uint64_t count, uint64_t *at, uint64_t *bits);

/* Ends a transmission with a whole octet: puts `*at` % 8 idles, after which `*at` is a multiple of 8. Fifteen ones are
 * one less than two octets, so that each idle moves the end back by one bit. They are read back as one idle; zeros in
 * their place would be a piece of damage before the next frame. Returns what port1_send_flag returns. */
uint32_t port1_send_align(struct port1_sender *sender, uint8_t *octets, uint64_t count, uint64_t *at, uint64_t *bits);

/* What a table says of one frame type: 8 octets. The table is an array, whose entries are those of the types 0, 1,
 * and so on, up to 256 of them; a type past its end is not known. */
struct port1_entry {
    uint8_t known;    /* 0 where there is no entry of the type; the rest then means nothing */
    uint8_t length;   /* how many octets follow the type octet, without the check */
    uint8_t answered; /* 0 where commands of the type are not to be answered; of types below 128 alone */
    uint8_t spare;    /* not read */
    uint32_t window;  /* within how many bits the answer is to begin, or 0 for no limit */
};

/* A pairing: 24 octets. 0 is one of no reports, so one of static storage needs no port1_pair_init. It may be copied.
 * Read it; write nothing into it. */
struct port1_pair {
    uint64_t first; /* the place of the first bit of the command that waits */
    uint64_t past;  /* the place just past its last bit */
    uint32_t waits; /* 0 where no command waits; the rest then means nothing */
    uint8_t station;
    uint8_t ftype;  /* the frame type of the command */
    uint16_t spare; /* not read */
};

/* How a frame stands to the table; 0 for a piece that is no frame. */
enum {
    PORT1_OTHER_CONTROL = 1, /* a control octet other than 0x83 */
    PORT1_UNTYPED = 2,       /* no octet between control and check */
    PORT1_UNKNOWN = 3,       /* a type that the table has not */
    PORT1_WRONG_LENGTH = 4,  /* another length than the table has for the type */
    PORT1_KNOWN = 5          /* of a type of the table, with its length */
};

/* What became of a command; 0 where nothing was decided. */
enum {
    PORT1_ANSWERED = 1, /* the next thing was the answer: of the same station, of a type 128 higher, known */
    PORT1_LATE = 2,     /* it was, and more bits than the window lay between */
    PORT1_MISSING = 3,  /* it was another frame */
    PORT1_SPOILT = 4    /* it was damaged, overlong or an abort */
};

/* What follows from a report: 40 octets. */
struct port1_seen {
    uint32_t standing; /* 0, or PORT1_OTHER_CONTROL to PORT1_KNOWN */
    uint32_t verdict;  /* on the command that waited: 0, or PORT1_ANSWERED to PORT1_SPOILT */
    uint64_t first;    /* of that command, the place of the first bit */
    uint64_t past;     /* and the place just past its last bit */
    uint32_t stray;    /* 1 for a frame of a type of 128 or more that answers no command, and else 0 */
    uint8_t station;   /* of a frame: its first octet */
    uint8_t control;   /* its second, where that is another than 0x83 */
    uint8_t ftype;     /* its type, where it has one */
    uint8_t command_station;
    uint8_t command_type;
    uint8_t spare[7];
};

/* Makes a pairing of no reports, whatever the memory holds. Returns PORT1_OK. */
uint32_t port1_pair_init(struct port1_pair *pair);

/* Takes a report, the octets of a frame with it, and says what follows from it. It is given each report of a line in
 * order: of one line, `line` is 0; of two, 1 for the controller's line, on which commands wait, and 2 for the line of
 * the answers, in the order in which their last bits were taken, and the first line's before the second's where both
 * have one at a place. The places of both have to count the same bits.
 *
 * A command waits if its entry says that it is answered, its type is below 128 and its station not 255. The next
 * report that is no idle decides on it.
 *
 * PORT1_BAD_ARGUMENT: just where `line` is above 2, the kind of the report is none that is named above, nor the cause
 * where the kind is PORT1_DAMAGED, or a frame has fewer than four octets. Nothing has changed. */
uint32_t port1_pair_take(struct port1_pair *pair, const struct port1_entry *entries, uint64_t entry_count,
                         uint32_t line, const struct port1_report *report, const uint8_t *octets, uint64_t count,
                         struct port1_seen *seen);

/* A wire: a bit of each sample. 4 octets; all 0 is no wire. */
struct port1_wire {
    uint8_t used;     /* 0 where there is none, whose level is low; the rest then means nothing */
    uint8_t number;   /* its bit, the lowest 0; a bit that a sample has not is 0 */
    uint8_t inverted; /* 0 unless its level is the other one, as of a clock whose falling edges count */
    uint8_t spare;    /* not read */
};

/* The wires of two lines, the controller's first. To exchange the lines, exchange their wires. Of one line the second
 * has none; two lines with one clock have the same one. */
struct port1_wires {
    struct port1_wire first_clock, first_data, second_clock, second_data;
};

/* A bit that arrives. */
struct port1_arrival {
    uint8_t line; /* 1 for the first line, 2 for the second */
    uint8_t bit;  /* 0 or 1 */
};

/* Samples in which something happens, numbered from 0. */
struct port1_occurrences {
    uint64_t count;       /* how many */
    uint64_t first, last; /* 0 where there is none */
};

/* A distance of two samples. */
struct port1_gap {
    uint64_t length, from;
};

/* What is counted of a line. Levels are those that count. */
struct port1_line_facts {
    struct port1_occurrences clock_changes, data_changes;
    struct port1_occurrences data_changes_high; /* while the clock is high, where it should not */
    struct port1_occurrences bits;
    struct port1_gap gap; /* the longest between two bits in a row, the first such */
    uint64_t step;        /* the distance of the last two bits, or 0 */
    struct port1_occurrences jumps; /* bits whose distance differs by more than `jump` from the one before */
};

/* The level of a wire. */
struct port1_wire_level {
    uint32_t level;  /* 0 where the level that counts is low */
    uint32_t others; /* for how many samples the other one has stood */
};

/* A tap: 384 octets. It holds no pointer, so it may be copied and moved. Read samples, the facts of both lines and the
 * levels; write nothing. */
struct port1_tap {
    uint64_t samples; /* how many it took */
    uint64_t jump;
    struct port1_line_facts first, second;
    struct port1_wire_level first_clock, first_data, second_clock, second_data;
    uint32_t hold;
    uint32_t begun; /* 0 before the first sample */
    struct port1_wires wires;
    uint64_t rest;
    uint64_t first_until, second_until; /* the last sample with which a bit comes behind no stop */
};

/* The arrivals that a tap must have room for: a bit of each line, behind fifteen 1s. */
#define PORT1_TAP_ROOM 32

/* Makes a tap that took no sample, whatever the memory holds. Returns PORT1_OK.
 * hold: a level counts once it stood in `hold` + 1 samples in a row; shorter ones are glitches. With 0 each counts.
 * jump: see struct port1_line_facts.
 * rest: a clock that stands for more samples has stopped; with 0 none has. */
uint32_t port1_tap_init(struct port1_tap *tap, const struct port1_wires *wires, uint32_t hold, uint64_t jump,
                        uint64_t rest);

/* Takes `*count` samples that are the same, until the arrivals have room for fewer than PORT1_TAP_ROOM more. Where a
 * line's clock rises, a bit of it arrives: the level of its data just before. Fifteen 1s of the line come before a bit
 * whose clock had stopped. Of two bits in one sample the first line's comes first. `*count` is then how many samples
 * are left, and `*arrived` how many arrivals were written, from the first on. It works for `hold` samples and one more
 * at the most after each change, however many they are.
 *
 * PORT1_OK: `*count` is 0, or call again, once the arrivals have been read.
 * PORT1_NO_ROOM: just where `room` < PORT1_TAP_ROOM. PORT1_BAD_STATE: the memory holds no tap. PORT1_PLACE_LIMIT: there would be
 * more than 2^60 samples. Nothing has changed. */
uint32_t port1_tap_push(struct port1_tap *tap, uint64_t sample, uint64_t *count, struct port1_arrival *arrivals,
                        uint64_t room, uint64_t *arrived);

/* Takes samples of `width` octets each, 1 to 8, the lowest first, from sample `*at` on, until the arrivals have room
 * for fewer than PORT1_TAP_ROOM more. `*at` is then the next sample to take. Octets behind the last whole sample are
 * left alone. Samples of an octet are taken 64 at once where `hold` is 0 or 1 and there is room for 2048 arrivals.
 *
 * PORT1_OK: `*at` is `count` / `width`, or call again. PORT1_BAD_ARGUMENT: just where `width` is not 1 to 8, or `*at` >
 * `count` / `width`. Nothing has changed. Else it returns what port1_tap_push returns. */
uint32_t port1_tap_feed(struct port1_tap *tap, const uint8_t *octets, uint64_t count, uint32_t width, uint64_t *at,
                        struct port1_arrival *arrivals, uint64_t room, uint64_t *arrived);

/* Takes runs of samples of an octet each, from run `*at` on, until the arrivals have room for fewer than PORT1_TAP_ROOM
 * more. A run is a number: its lowest octet is a sample, and the rest says how many are the same, as `port1-sample
 * --runs` reads them. `*at` is then the next run to take, of which those samples are left that were not taken. No other
 * run changes.
 *
 * PORT1_OK: `*at` is `count`, or call again, once the arrivals have been read. PORT1_PLACE_LIMIT: with run `*at` there
 * would be more than 2^60 samples; those before were taken. PORT1_NO_ROOM, PORT1_BAD_STATE: as port1_tap_push. */
uint32_t port1_tap_feed_runs(struct port1_tap *tap, uint64_t *runs, uint64_t count, uint64_t *at,
                             struct port1_arrival *arrivals, uint64_t room, uint64_t *arrived);

/* The rule of rest: 24 octets, for stations that drive their clock only while they send. 0 is one by which the second
 * line never comes to rest. Read it; write nothing into it. */
struct port1_rest {
    uint64_t most;   /* the silence that brings the second line to rest, in bits of the first; 0: none does */
    uint64_t silent; /* bits of the first line since the last of the second, up to `most` */
    uint64_t ones;   /* 1s at the end of the second line with those put in, up to fifteen */
};

/* The silence that suits a traffic cabinet: no sender pauses so long within a frame. */
#define PORT1_SILENCE 40

/* Makes the rule before the first bit, whatever the memory holds. Returns PORT1_OK. */
uint32_t port1_rest_init(struct port1_rest *rest, uint64_t most);

/* Takes a bit that arrives. Where `*rests` is then 1, fifteen 1s of the second line arrive right after it, which end a
 * piece that a station broke off: give them to its decoder, and not to this call. Else it is 0.
 * PORT1_BAD_ARGUMENT: just where the line is neither 1 nor 2. PORT1_BAD_STATE: the memory holds no rule. Nothing has
 * changed. */
uint32_t port1_rest_push(struct port1_rest *rest, const struct port1_arrival *arrival, uint8_t *rests);

/* The most bits that port1_rest_feed puts for one that arrives: that bit, and fifteen 1s. */
#define PORT1_REST_ROOM 16

/* Takes bits `*at` to `count` - 1 that arrive, while there is room for PORT1_REST_ROOM bits more, and puts each into
 * `out`, with fifteen 1s of the second line right behind it where that comes to rest. `*at` is then the next bit to
 * take, and `*put` how many bits were put.
 *
 * PORT1_OK: `*at` is `count`, or `out` has to be emptied; then call again.
 * PORT1_NO_ROOM: just where `room` is under PORT1_REST_ROOM. Nothing has changed.
 * PORT1_BAD_ARGUMENT: bit `*at` is neither of line 1 nor 2. PORT1_BAD_STATE: the memory holds no rule. Those before were
 * put. */
uint32_t port1_rest_feed(struct port1_rest *rest, const struct port1_arrival *arrivals, uint64_t count, uint64_t *at,
                         struct port1_arrival *out, uint64_t room, uint64_t *put);

/* Decoders of two lines with a clock each: 864 octets. They hold no pointer, so they may be copied and moved. Read of
 * both lines what struct port1_line says; write nothing. */
struct port1_clocks {
    struct port1_line first, second; /* the places of `second` count its own bits, from 0 */
    uint64_t reached;                /* the place of the first line's last bit */
    uint64_t recent[16], opened;
};

/* Makes decoders that took no bit, whatever the memory holds. It takes and returns what port1_line_init does; the first
 * line's first bit has the place `origin`. */
uint32_t port1_clocks_init(struct port1_clocks *clocks, uint64_t longest, uint64_t origin);

/* Takes a bit that arrives. `*report` is what it decided on its line, whose `octets` then have the frame.
 *
 * The first line's bits number the places. A bit of the second line stands at the place of the last bit of the first
 * line before it, and at the origin if there is none. A report of the second line goes from the place of its first bit
 * to past that of its last one. Reports come in the order in which port1_pair_take wants them.
 *
 * PORT1_PLACE_LIMIT: a bit of the first line would have place 2^60, or the second line had 2^60 bits.
 * PORT1_BAD_ARGUMENT: just where the line is neither 1 nor 2. PORT1_BAD_STATE: the memory does not hold two decoders.
 * Where it does not return PORT1_OK, nothing has changed. */
uint32_t port1_clocks_push(struct port1_clocks *clocks, const struct port1_arrival *arrival,
                           struct port1_report *report);

/* Takes bits `*at` to `count` - 1 that arrive, up to the first that decides a report. `*at` is then the next bit to
 * take, and `*report` what the last one decided on its line, as port1_clocks_push tells it.
 *
 * PORT1_OK: with PORT1_NONE in the report `*at` is `count`; else call again.
 * PORT1_PLACE_LIMIT, PORT1_BAD_ARGUMENT: what port1_clocks_push returns for bit `*at`. Those before were taken, and
 * decided nothing. PORT1_BAD_STATE: the memory does not hold two decoders. */
uint32_t port1_clocks_feed(struct port1_clocks *clocks, const struct port1_arrival *arrivals, uint64_t count, uint64_t *at,
                           struct port1_report *report);

/* Says whether a piece has begun on line 1 or 2 that nothing has ended yet: `*has_begun` is then 1, `*first` the place
 * of its first bit, and `*past` the place just past its last one; else `*has_begun` is 0 and both are as they were.
 * PORT1_BAD_ARGUMENT: just where `line` is neither 1 nor 2. PORT1_BAD_STATE: the memory does not hold two decoders.
 * Nothing has changed. */
uint32_t port1_clocks_open(const struct port1_clocks *clocks, uint32_t line, uint8_t *has_begun, uint64_t *first,
                           uint64_t *past);

/* The layout that the library was compiled with. Where the language has no assert of its own, an array of a negative
 * size is the error. */
#if defined(__cplusplus) && __cplusplus >= 201103L
#define PORT1_ASSERT(name, holds, text) static_assert(holds, text)
#elif defined(__STDC_VERSION__) && __STDC_VERSION__ >= 201112L
#define PORT1_ASSERT(name, holds, text) _Static_assert(holds, text)
#else
#define PORT1_ASSERT(name, holds, text) typedef char port1_assert_##name[(holds) ? 1 : -1]
#endif
#define PORT1_SIZE(type, octets)                                                                                     \
    PORT1_ASSERT(size_of_##type, sizeof(struct port1_##type) == octets,                                              \
                 "port1.h: struct port1_" #type " has not the " #octets " octets that it has in the library")
#define PORT1_PLACE(type, field, octet)                                                                              \
    PORT1_ASSERT(type##_##field, offsetof(struct port1_##type, field) == octet,                                      \
                 "port1.h: " #field " of struct port1_" #type " is not at octet " #octet ", where the library has it")
PORT1_SIZE(line, 360);
PORT1_PLACE(line, longest, 0);
PORT1_PLACE(line, origin, 8);
PORT1_PLACE(line, place, 16);
PORT1_PLACE(line, settles_at, 24);
PORT1_PLACE(line, folded, 32);
PORT1_PLACE(line, stored, 40);
PORT1_PLACE(line, assembled, 48);
PORT1_PLACE(line, data_bits, 56);
PORT1_PLACE(line, partial, 64);
PORT1_PLACE(line, last_bits, 72);
PORT1_PLACE(line, count, 80);
PORT1_PLACE(line, spare, 84);
PORT1_PLACE(line, check, 86);
PORT1_PLACE(line, octets, 88);
PORT1_SIZE(report, 24);
PORT1_PLACE(report, kind, 0);
PORT1_PLACE(report, cause, 4);
PORT1_PLACE(report, first, 8);
PORT1_PLACE(report, past, 16);
PORT1_SIZE(sender, 4);
PORT1_PLACE(sender, behind_flag, 0);
PORT1_SIZE(entry, 8);
PORT1_PLACE(entry, known, 0);
PORT1_PLACE(entry, length, 1);
PORT1_PLACE(entry, answered, 2);
PORT1_PLACE(entry, spare, 3);
PORT1_PLACE(entry, window, 4);
PORT1_SIZE(pair, 24);
PORT1_PLACE(pair, first, 0);
PORT1_PLACE(pair, past, 8);
PORT1_PLACE(pair, waits, 16);
PORT1_PLACE(pair, station, 20);
PORT1_PLACE(pair, ftype, 21);
PORT1_PLACE(pair, spare, 22);
PORT1_SIZE(seen, 40);
PORT1_PLACE(seen, standing, 0);
PORT1_PLACE(seen, verdict, 4);
PORT1_PLACE(seen, first, 8);
PORT1_PLACE(seen, past, 16);
PORT1_PLACE(seen, stray, 24);
PORT1_PLACE(seen, station, 28);
PORT1_PLACE(seen, control, 29);
PORT1_PLACE(seen, ftype, 30);
PORT1_PLACE(seen, command_station, 31);
PORT1_PLACE(seen, command_type, 32);
PORT1_PLACE(seen, spare, 33);
PORT1_SIZE(wire, 4);
PORT1_PLACE(wire, used, 0);
PORT1_PLACE(wire, number, 1);
PORT1_PLACE(wire, inverted, 2);
PORT1_PLACE(wire, spare, 3);
PORT1_SIZE(wires, 16);
PORT1_PLACE(wires, first_clock, 0);
PORT1_PLACE(wires, first_data, 4);
PORT1_PLACE(wires, second_clock, 8);
PORT1_PLACE(wires, second_data, 12);
PORT1_SIZE(arrival, 2);
PORT1_PLACE(arrival, line, 0);
PORT1_PLACE(arrival, bit, 1);
PORT1_SIZE(occurrences, 24);
PORT1_PLACE(occurrences, count, 0);
PORT1_PLACE(occurrences, first, 8);
PORT1_PLACE(occurrences, last, 16);
PORT1_SIZE(gap, 16);
PORT1_PLACE(gap, length, 0);
PORT1_PLACE(gap, from, 8);
PORT1_SIZE(line_facts, 144);
PORT1_PLACE(line_facts, clock_changes, 0);
PORT1_PLACE(line_facts, data_changes, 24);
PORT1_PLACE(line_facts, data_changes_high, 48);
PORT1_PLACE(line_facts, bits, 72);
PORT1_PLACE(line_facts, gap, 96);
PORT1_PLACE(line_facts, step, 112);
PORT1_PLACE(line_facts, jumps, 120);
PORT1_SIZE(wire_level, 8);
PORT1_PLACE(wire_level, level, 0);
PORT1_PLACE(wire_level, others, 4);
PORT1_SIZE(tap, 384);
PORT1_PLACE(tap, samples, 0);
PORT1_PLACE(tap, jump, 8);
PORT1_PLACE(tap, first, 16);
PORT1_PLACE(tap, second, 160);
PORT1_PLACE(tap, first_clock, 304);
PORT1_PLACE(tap, first_data, 312);
PORT1_PLACE(tap, second_clock, 320);
PORT1_PLACE(tap, second_data, 328);
PORT1_PLACE(tap, hold, 336);
PORT1_PLACE(tap, begun, 340);
PORT1_PLACE(tap, wires, 344);
PORT1_PLACE(tap, rest, 360);
PORT1_PLACE(tap, first_until, 368);
PORT1_PLACE(tap, second_until, 376);
PORT1_SIZE(rest, 24);
PORT1_PLACE(rest, most, 0);
PORT1_PLACE(rest, silent, 8);
PORT1_PLACE(rest, ones, 16);
PORT1_SIZE(clocks, 864);
PORT1_PLACE(clocks, first, 0);
PORT1_PLACE(clocks, second, 360);
PORT1_PLACE(clocks, reached, 720);
PORT1_PLACE(clocks, recent, 728);
PORT1_PLACE(clocks, opened, 856);
#undef PORT1_PLACE
#undef PORT1_SIZE
#undef PORT1_ASSERT

#ifdef __cplusplus
}
#endif
#endif
