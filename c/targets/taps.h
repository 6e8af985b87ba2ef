/* Calls of taps, the rule of rest and two lines with a clock each on random states, for states.c. Each draws what it is
 * given, calls the library, and hashes what that may write. */
#include "port1.h"
#include "random.h"

#define ARRIVALS 80
#define CLOCK_BITS 24

static struct {
    struct port1_tap tap;
    struct port1_rest rest;
    uint64_t at, arrived;
    struct port1_arrival arrivals[ARRIVALS];
    uint8_t rests[8];
} tapped;
static struct {
    struct port1_clocks clocks;
    struct port1_report report;
    uint64_t first, past;
    uint8_t has_begun[8];
} clocked;
static struct port1_arrival many[64 * PORT1_TAP_ROOM + 4]; /* for 64 samples at once */
static struct port1_clocks sound_clocks;           /* that only the library wrote */

static uint32_t note_tapped(uint32_t status) { return note_call(status, &tapped, sizeof tapped); }

static uint32_t note_clocked(uint32_t status) { return note_call(status, &clocked, sizeof clocked); }

/* Changes an object now and then: one of its octets, or all. */
static void damage(void *object, uint32_t count) {
    if (below(16) == 0)
        ((uint8_t *)object)[below(count)] = (uint8_t)draw();
    if (below(64) == 0)
        fill(object, count);
}

static uint32_t tap_init(void) {
    uint32_t status = PORT1_OK;
    struct port1_wires wires;
    fill(&wires, sizeof wires);
    wires.first_clock.used &= 1;
    wires.second_clock.number &= 7;
    if (below(8) == 0) {
        uint32_t hold = below(4), jump = below(9), rest = below(12);
        status = port1_tap_init(&tapped.tap, &wires, hold, jump, rest);
    }
    damage(&tapped.tap, sizeof tapped.tap);
    return note_tapped(status);
}

/* Samples that stand for long, but not for as long as a `hold` that is any number has the call work. */
static uint32_t tap_push(void) {
    uint64_t sample = draw(), count = below(ARRIVALS + 1);
    tapped.at = below(4) == 0 ? below(4000) : below(9);
    return note_tapped(port1_tap_push(&tapped.tap, sample, &tapped.at, tapped.arrivals, count, &tapped.arrived));
}

/* Samples of an octet, with room for many at once. */
static uint32_t tap_feed_many(void) {
    uint8_t samples[200];
    uint32_t status, count = below(sizeof samples + 1);
    uint64_t most = sizeof many / sizeof *many - below(9);
    fill(samples, sizeof samples);
    tapped.at = below(8) == 0 ? below(200) : 0;
    status = port1_tap_feed(&tapped.tap, samples, count, 1, &tapped.at, many, most, &tapped.arrived);
    note(many, sizeof many);
    return note_tapped(status);
}

/* Samples that often are the same as the one before. */
static uint32_t tap_feed(void) {
    uint8_t samples[64];
    uint32_t width = below(8) > 0 ? 1 + below(4) : below(10), count = below(sizeof samples + 1);
    uint64_t most = below(ARRIVALS + 1);
    if (below(16) == 0)
        return tap_feed_many();
    fill(samples, sizeof samples);
    for (uint32_t k = width; k < sizeof samples; k++)
        if (below(4) > 0)
            samples[k] = samples[k - width];
    tapped.at = below(8) == 0 ? below(40) : 0;
    return note_tapped(
        port1_tap_feed(&tapped.tap, samples, count, width, &tapped.at, tapped.arrivals, most, &tapped.arrived));
}

static uint32_t rest_init(void) {
    uint32_t status = below(64) == 0 ? port1_rest_init(&tapped.rest, below(40)) : PORT1_OK;
    damage(&tapped.rest, sizeof tapped.rest);
    return note_tapped(status);
}

static struct port1_arrival draw_arrival(void) {
    struct port1_arrival arrival = {1, 0};
    arrival.line = (uint8_t)(below(16) > 0 ? 1 + below(2) : below(5));
    arrival.bit = (uint8_t)below(2);
    return arrival;
}

static uint32_t rest_push(void) {
    const struct port1_arrival arrival = draw_arrival();
    return note_tapped(port1_rest_push(&tapped.rest, &arrival, tapped.rests));
}

/* Lets the sound decoders take some bits of these octets, those of the second line late. */
static void clocks_go_on(const uint8_t *octets) {
    if (below(256) == 0 || sound_clocks.first.longest == 0) {
        uint64_t longest = 3 + below(254), last = (uint64_t)1 << 60;
        port1_clocks_init(&sound_clocks, longest, below(2) == 0 ? 0 : last - below(9000));
    }
    for (uint32_t k = 0; k < 2 * CLOCK_BITS; k++) {
        const uint32_t bit = k / 2 + 16 * (k & 1);
        const struct port1_arrival arrival = {(uint8_t)(1 + k % 2), octets[bit / 8] >> bit % 8 & 1};
        port1_clocks_push(&sound_clocks, &arrival, &clocked.report);
    }
    clocked.clocks = sound_clocks;
    damage(&clocked.clocks, sizeof clocked.clocks);
}

static uint32_t clocks_init(void) {
    uint64_t longest = below(300), origin = below(4) == 0 ? draw() : below(1000);
    return note_clocked(below(64) == 0 ? port1_clocks_init(&clocked.clocks, longest, origin) : PORT1_OK);
}

static uint32_t clocks_push(void) {
    const struct port1_arrival arrival = draw_arrival();
    return note_clocked(port1_clocks_push(&clocked.clocks, &arrival, &clocked.report));
}

static uint32_t clocks_open(void) {
    uint32_t line = below(8) > 0 ? 1 + below(2) : below(5);
    return note_clocked(port1_clocks_open(&clocked.clocks, line, clocked.has_begun, &clocked.first, &clocked.past));
}
