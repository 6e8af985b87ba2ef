/* A tap of one line that writes what `port1 list` does: octets come by an interrupt, the first bit of each lowest, and
 * each decided report is a line. It reads a packed capture (TS2BITS1), whose head says where the line ends. */
#include "board.h"
#include "port1.h"
#include "ring.h"

static struct port1_line line;
static struct port1_pair pair;

/* The frame types of examples/call-within-window.toml, without their names. */
static const struct port1_entry entries[256] = {
    [0] = {.known = 1, .length = 0, .answered = 1, .window = 16},
    [128] = {.known = 1, .length = 0},
    [9] = {.known = 1, .length = 0},
};

/* The longest frame: address, control and type, and the most octets that an entry has. What is longer is overlong. */
enum { LONGEST = 3 + 0 };

static void put_span(uint64_t first, uint64_t past, const char *what) {
    put_number(first);
    put_letter(' ');
    put_number(past);
    put_letter(' ');
    put_text(what);
}

static void put_station(unsigned station, unsigned type) {
    put_text(" station ");
    put_number(station);
    put_text(" type ");
    put_number(type);
}

static void put_octets(void) {
    put_letter(' ');
    for (uint32_t at = 0; at < line.count; at++) {
        put_letter("0123456789abcdef"[line.octets[at] >> 4]);
        put_letter("0123456789abcdef"[line.octets[at] & 15]);
    }
}

/* What stands after the octets of a frame: how it stands to the table. */
static void put_standing(const struct port1_seen *seen) {
    if (seen->standing == PORT1_OTHER_CONTROL) {
        put_text(" control ");
        put_number(seen->control);
    } else if (seen->standing == PORT1_UNTYPED) {
        put_text(" untyped");
    } else {
        put_station(seen->station, seen->ftype);
        put_text(seen->standing == PORT1_UNKNOWN ? " unknown" : seen->standing == PORT1_WRONG_LENGTH ? " length" : "");
    }
}

/* A report, and the verdict that it decides. */
static void put_report(const struct port1_report *report) {
    static const char *const kinds[] = {"", "frame", "damaged", "overlong", "abort", "idle"};
    static const char *const causes[] = {"", " unstuffed", " short", " unaligned", " fcs"};
    static const char *const verdicts[] = {"", "answered", "late", "missing", "spoilt"};
    struct port1_seen seen = {0};
    uint64_t count = report->kind == PORT1_FRAME ? line.count : 0;
    if (port1_pair_take(&pair, entries, 256, 0, report, line.octets, count, &seen) != PORT1_OK)
        return;
    put_span(report->first, report->past, kinds[report->kind]);
    put_text(causes[report->cause]);
    if (report->kind == PORT1_FRAME) {
        put_octets();
        put_standing(&seen);
    }
    put_letter('\n');
    if (seen.verdict) {
        put_span(seen.first, seen.past, verdicts[seen.verdict]);
        put_station(seen.command_station, seen.command_type);
        put_letter('\n');
    }
    if (seen.stray) {
        put_span(report->first, report->past, "stray");
        put_station(seen.station, seen.ftype);
        put_letter('\n');
    }
}

/* What has begun at the end of the capture, and the command that waits. */
static void put_ending(void) {
    uint8_t has_begun = 0;
    uint64_t first = 0;
    if (port1_line_open(&line, &has_begun, &first) == PORT1_OK && has_begun) {
        put_span(first, line.place, "open");
        put_letter('\n');
    }
    if (pair.waits) {
        put_span(pair.first, pair.past, "pending");
        put_station(pair.station, pair.ftype);
        put_letter('\n');
    }
}

/* How many octets came while the ring was full, and were dropped. */
static volatile uint32_t lost;

void received(unsigned uart, uint8_t octet) {
    (void)uart;
    if (ring_room())
        ring_put(octet);
    else
        lost++;
}

/* The number of bits in the head of a packed capture. */
static uint64_t bits_in_head(void) {
    uint64_t bits = 0;
    for (int at = 0; at < 8; at++)
        (void)ring_take();
    for (int at = 0; at < 8; at++)
        bits |= (uint64_t)ring_take() << 8 * at;
    return bits;
}

int main(void) {
    board_begin(UART0);
    if (port1_line_init(&line, LONGEST, 0) != PORT1_OK)
        return 1;
    for (uint64_t bits = bits_in_head(); bits;) {
        const uint8_t octet = ring_take();
        const uint64_t end = bits < 8 ? bits : 8;
        struct port1_report report = {0};
        uint64_t at = 0;
        while (at < end && port1_line_feed(&line, &octet, 1, &at, end, &report) == PORT1_OK)
            if (report.kind != PORT1_NONE)
                put_report(&report);
        bits -= end;
    }
    put_ending();
    if (lost) {
        put_text("lost ");
        put_number(lost);
        put_letter('\n');
    }
    return 0;
}
