/* Calls of the library, each from a function that is named after what is measured: measured.py reads from the log of an
 * emulator how many instructions a call took. Of capture.h `polling` and `frames` are usual traffic, `hardest` has
 * everything that takes long. */
#include "../bench/reversed.h"
#include "capture.h"
#include "port1.h"

#define MEASURED static void __attribute__((noinline, noclone))

static struct port1_line line;
static struct port1_report report;
static struct port1_entry entries[256];
static struct port1_pair pair;
static struct port1_seen seen;
static struct port1_sender sender;
static struct port1_tap tap;
static struct port1_rest rest;
static struct port1_clocks clocks;
static struct port1_arrival arrivals[64];
static uint8_t sent[320], ones[256], samples[26], has_begun, rests;
static uint64_t at, bits, first, past, arrived;

/* The clock and the data of both lines in the lowest bits of a sample. */
static const struct port1_wires wires = {{1, 0, 0, 0}, {1, 1, 0, 0}, {1, 2, 0, 0}, {1, 3, 0, 0}};

/* What a call returned last: it keeps a call from being the last thing that a function does. */
static volatile uint32_t status;

static inline __attribute__((always_inline)) void feed(const uint8_t *octets, uint32_t size, uint32_t chunk) {
    for (uint32_t k = 0; k < size; k += chunk) {
        const uint32_t count = size - k < chunk ? size - k : chunk;
        for (at = 0; at < 8 * count;)
            status = port1_line_feed(&line, octets + k, count, &at, 8 * count, &report);
    }
}

MEASURED polling_1(void) { feed(polling, sizeof polling, 1); }
MEASURED polling_8(void) { feed(polling, sizeof polling, 8); }
MEASURED polling_32(void) { feed(polling, sizeof polling, 32); }
MEASURED hardest_1(void) { feed(hardest, sizeof hardest, 1); }
MEASURED hardest_8(void) { feed(hardest, sizeof hardest, 8); }
MEASURED hardest_32(void) { feed(hardest, sizeof hardest, 32); }

MEASURED high_first(void) {
    for (uint32_t k = 0; k < sizeof hardest; k++)
        for (at = 0; at < 8;)
            status = port1_line_feed_high_first(&line, reversed(hardest[k]), &at, &report);
}

MEASURED pushed(void) {
    for (uint32_t k = 0; k < 8 * sizeof polling; k++)
        status = port1_line_push(&line, polling[k / 8] >> k % 8 & 1, &report);
}

static inline uint64_t count_of(const struct port1_report *from) { return from->kind == PORT1_FRAME ? line.count : 0; }

MEASURED paired(void) {
    for (uint32_t k = 0; k < sizeof hardest; k++)
        for (at = 0; at < 8;) {
            status = port1_line_feed(&line, hardest + k, 1, &at, 8, &report);
            if (report.kind != PORT1_NONE)
                status = port1_pair_take(&pair, entries, 256, 0, &report, line.octets, count_of(&report), &seen);
        }
}

MEASURED sent_again(void) {
    for (uint32_t k = 0; k < sizeof frames / sizeof *frames; k++) {
        at = 0;
        status = port1_send_frame(&sender, frames[k].octets, frames[k].length, sent, sizeof sent, &at, &bits);
    }
}

MEASURED longest_sent(void) {
    for (uint32_t k = 0; k < sizeof ones; k++)
        ones[k] = 0xff;
    at = 1;
    status = port1_send_frame(&sender, ones, sizeof ones, sent, sizeof sent, &at, &bits);
}

/* Bits of both lines at 26 samples a bit, as 4 MHz takes them; the second clock is early by a quarter of a bit. */
MEASURED sampled(void) {
    for (uint32_t k = 0; k < 8 * sizeof polling; k++) {
        for (uint32_t i = 0; i < sizeof samples; i++)
            samples[i] = (uint8_t)((polling[k / 8] >> k % 8 & 1) * 10 + (i >= 13) + 4 * (i >= 6 && i < 19));
        for (at = 0; at < sizeof samples;)
            status = port1_tap_feed(&tap, samples, sizeof samples, 1, &at, arrivals, 64, &arrived);
    }
}

static inline __attribute__((always_inline)) struct port1_arrival arrival(const uint8_t *octets, uint32_t k) {
    return (struct port1_arrival){(uint8_t)(1 + k % 2), octets[k / 16] >> k / 2 % 8 & 1};
}

static inline __attribute__((always_inline)) void arrive(const uint8_t *octets, uint32_t size) {
    for (uint32_t k = 0; k < 16 * size; k++) {
        const struct port1_arrival one = arrival(octets, k);
        status = port1_rest_push(&rest, &one, &rests);
        status = port1_clocks_push(&clocks, &one, &report);
    }
}

static inline __attribute__((always_inline)) void arrive_16(const uint8_t *octets, uint32_t size) {
    for (uint32_t k = 0; k < 16 * size; k += 16) {
        for (uint32_t i = 0; i < 16; i++)
            arrivals[i] = arrival(octets, k + i);
        for (at = 0; at < 16;)
            status = port1_clocks_feed(&clocks, arrivals, 16, &at, &report);
    }
}

MEASURED arriving(void) { arrive(polling, sizeof polling); }
MEASURED hardest_arriving(void) { arrive(hardest, sizeof hardest); }
MEASURED arriving_16(void) { arrive_16(polling, sizeof polling); }
MEASURED hardest_arriving_16(void) { arrive_16(hardest, sizeof hardest); }

MEASURED others(void) {
    static const struct port1_arrival given[] = {{1, 0}, {2, 1}};
    uint64_t runs[] = {0x1a00, 0x1a05};
    at = sizeof samples;
    status = port1_tap_push(&tap, 0, &at, arrivals, 64, &arrived);
    at = 0;
    status = port1_tap_feed_runs(&tap, runs, 2, &at, arrivals, 64, &arrived);
    status = port1_clocks_open(&clocks, 2, &has_begun, &first, &past);
    at = 0;
    status = port1_rest_feed(&rest, given, 2, &at, arrivals, 64, &arrived);
    at = 0;
    status = port1_clocks_feed(&clocks, given, 2, &at, &report);
    status = port1_line_open(&line, &has_begun, &first);
    at = 7;
    status = port1_send_flag(&sender, sent, sizeof sent, &at, &bits);
    status = port1_send_idle(&sender, sent, sizeof sent, &at, &bits);
    at = 7;
    status = port1_send_align(&sender, sent, sizeof sent, &at, &bits);
    status = port1_line_init(&line, 256, 0);
    status = port1_sender_init(&sender);
    status = port1_pair_init(&pair);
    status = port1_tap_init(&tap, &wires, 1, 2, 0);
    status = port1_rest_init(&rest, PORT1_SILENCE);
    status = port1_clocks_init(&clocks, 256, 0);
}

int main(void) {
    status = port1_line_init(&line, 256, 0);
    status = port1_tap_init(&tap, &wires, 1, 2, 0);
    status = port1_rest_init(&rest, PORT1_SILENCE);
    status = port1_clocks_init(&clocks, 256, 0);
    for (uint32_t k = 0; k < 256; k++)
        entries[k] = (struct port1_entry){.known = 1, .length = 4, .answered = k < 128, .window = 1536};
    polling_1(), polling_8(), polling_32();
    hardest_1(), hardest_8(), hardest_32();
    high_first(), pushed(), paired();
    sent_again(), longest_sent();
    sampled(), arriving(), hardest_arriving();
    arriving_16(), hardest_arriving_16();
    others();
    return 0;
}
