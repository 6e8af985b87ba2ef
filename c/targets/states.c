/* Calls the C library on random states, and prints a hash over all that the calls return and write, which is to be the
 * same on every processor; then how often each call returned each status, and how many reports of each kind came.
 *
 * STATES is how many states there are, 300000 unless defined. A state is a decoder, octets to take, a sender and
 * octets to send into, a pairing, and a tap of two lines with its decoders (taps.h). Half of the decoders are what
 * taking traffic left, from an origin that is 0, random or near 2^60. Of the others, half are such a decoder with one
 * octet of its numbers changed, which is often no decoder, and half are random octets. Each state goes through all rows
 * of the table below: a call of the library has a function there, which draws what it is given, calls it, and hashes
 * what it may write. */
#include "../bench/reversed.h"
#include "port1.h"
#include "taps.h"
#include <inttypes.h>
#include <stddef.h>
#include <stdio.h>

#ifndef STATES
#define STATES 300000
#endif

#define TAKEN 40
#define SENT 344
#define TRAFFIC 3000
#define STATUSES 8
#define PAIR_ENTRIES 200

/* What a receiver may write, and what a sender may write. */
static struct {
    struct port1_line line;
    struct port1_report report;
    uint64_t at, first;
    uint8_t has_begun[8];
} received;
static struct {
    uint64_t at, bits;
    struct port1_sender sender;
    uint8_t octets[SENT + 4];
} sent;
static struct {
    struct port1_pair pair;
    struct port1_seen seen;
} paired;
static struct port1_entry entries[PAIR_ENTRIES];   /* of any content */

static struct port1_line sound;                    /* a decoder that only the library wrote */
static uint8_t room[TAKEN + 4], *taken = room;     /* octets to take, at any address */
static uint8_t traffic[TRAFFIC];                   /* frames, flags and idle times one after the other */
static uint32_t place;                             /* of the traffic that comes next */
static uint32_t counts[24][STATUSES], reports[STATUSES];

static uint32_t note_received(uint32_t status) { return note_call(status, &received, sizeof received); }

static uint32_t note_sent(uint32_t status) { return note_call(status, &sent, sizeof sent); }

/* Sends frames of all lengths, flags and idle times, till no more fits. */
static void make_traffic(void) {
    static uint8_t frame[256];
    struct port1_sender sender = {0};
    uint64_t at = 0, bits = 0;
    uint32_t status = PORT1_OK;
    while (status == PORT1_OK) {
        uint32_t what = below(8), length = 2 + below(what == 2 ? 255 : 30);
        fill(frame, length);
        if (what == 0)
            status = port1_send_flag(&sender, traffic, sizeof traffic, &at, &bits);
        else if (what == 1)
            status = port1_send_idle(&sender, traffic, sizeof traffic, &at, &bits);
        else
            status = port1_send_frame(&sender, frame, length, traffic, sizeof traffic, &at, &bits);
    }
}

/* Octets to take: traffic from any place on, and in between some that are damaged, or are flags or ones. */
static void fill_taken(void) {
    taken = room + below(4);
    for (uint32_t k = 0; k < TAKEN; k++) {
        uint32_t what = below(64);
        if (what == 0)
            place = below(TRAFFIC);
        taken[k] = traffic[place++ % TRAFFIC];
        if (what == 1)
            taken[k] ^= (uint8_t)(1u << below(8));
        if (what == 2)
            taken[k] = (uint8_t)(below(2) == 0 ? 0xff : 0x7e);
        if (what == 3)
            taken[k] = (uint8_t)draw();
    }
}

/* Begins the sound decoder anew. */
static void begin(void) {
    uint32_t where = below(3);
    uint64_t longest = 3 + below(254), last = (uint64_t)1 << 60;
    port1_line_init(&sound, longest, where == 0 ? 0 : where == 1 ? draw() >> 4 : last - below(9000));
}

/* Lets the sound decoder take some more traffic. */
static void go_on(void) {
    struct port1_report report;
    uint64_t at = 0;
    if (below(64) == 0)
        begin();
    fill_taken();
    while (at < 8 * TAKEN)
        if (port1_line_feed(&sound, taken, TAKEN, &at, 8 * TAKEN, &report) != PORT1_OK) {
            begin();
            return;
        }
}

static void make_state(void) {
    go_on();
    clocks_go_on(taken);
    received.line = sound;
    if (below(2) == 0) {
        if (below(2) == 0)
            fill(&received.line, sizeof received.line);
        else
            ((uint8_t *)&received.line)[below(offsetof(struct port1_line, octets))] = (uint8_t)draw();
    }
    sent.sender.behind_flag = below(9) == 0 ? (uint32_t)draw() : below(2);
    fill(sent.octets, sizeof sent.octets);
}

/* The octets, or no pointer where there are none. */
static uint8_t *given(uint8_t *octets, uint64_t count) { return count > 0 || below(2) == 0 ? octets : NULL; }

/* Where bits of so many octets are to begin: mostly there, and sometimes after them. */
static uint64_t place_in(uint64_t count) { return below((uint32_t)(8 * count + 9)); }

static uint32_t init(void) {
    uint64_t longest = below(300), origin = below(4) == 0 ? draw() : below(1000);
    return note_received(port1_line_init(&received.line, longest, origin));
}

static uint32_t feed(void) {
    uint64_t count, end;
    uint32_t status, calls = 0;
    const uint8_t *octets;
    fill_taken();
    count = below(TAKEN + 1);
    octets = given(taken, count);
    received.at = below(16) == 0 ? place_in(count) : below(8);
    end = below(8) == 0 ? place_in(count) : 8 * count;
    do {
        status = note_received(port1_line_feed(&received.line, octets, count, &received.at, end, &received.report));
        if (status == PORT1_OK)
            reports[received.report.kind]++;
    } while (status == PORT1_OK && received.report.kind != PORT1_NONE && ++calls < 40);
    return status;
}

/* Four octets, one after the other, each mostly from its first bit on. */
static uint32_t feed_high_first(void) {
    uint32_t status = PORT1_OK;
    fill_taken();
    for (uint32_t k = 0; k < 4 && status == PORT1_OK; k++) {
        uint8_t octet = reversed(taken[k]);
        received.at = below(8) == 0 ? below(12) : 0;
        do {
            status = note_received(
                port1_line_feed_high_first(&received.line, octet, &received.at, &received.report));
            if (status == PORT1_OK)
                reports[received.report.kind]++;
        } while (status == PORT1_OK && received.report.kind != PORT1_NONE);
    }
    return status;
}

static uint32_t push(void) {
    uint8_t bit = (uint8_t)(below(4) == 0 ? draw() : below(2));
    return note_received(port1_line_push(&received.line, bit, &received.report));
}

static uint32_t open_piece(void) {
    return note_received(port1_line_open(&received.line, received.has_begun, &received.first));
}

static uint32_t make_sender(void) { return note_sent(port1_sender_init(&sent.sender)); }

/* Sends what is no frame. */
static uint32_t send_by(uint32_t (*call)(struct port1_sender *, uint8_t *, uint64_t, uint64_t *, uint64_t *)) {
    uint64_t count = below(SENT + 1);
    uint8_t *octets = given(sent.octets + below(4), count);
    sent.at = place_in(count);
    return note_sent(call(&sent.sender, octets, count, &sent.at, &sent.bits));
}

static uint32_t send_flag(void) { return send_by(port1_send_flag); }

static uint32_t send_idle(void) { return send_by(port1_send_idle); }

static uint32_t send_align(void) { return send_by(port1_send_align); }

static uint32_t send_frame(void) {
    static uint8_t frame[264];
    uint64_t count = below(SENT + 1), length = below(8) > 0 ? 2 + below(20) : below(260);
    uint8_t *octets = given(sent.octets + below(4), count), *begin = given(frame + below(4), length);
    if (below(2) == 0)
        fill(frame, sizeof frame);
    else
        memset(frame, 0xff, sizeof frame);
    sent.at = below(4) > 0 ? below(64) : place_in(count);
    return note_sent(port1_send_frame(&sent.sender, begin, length, octets, count, &sent.at, &sent.bits));
}

static uint32_t make_pair(void) {
    uint32_t status = below(8) > 0 ? PORT1_OK : port1_pair_init(&paired.pair);
    if (below(8) == 0)
        fill(&paired.pair, sizeof paired.pair);
    note(&paired, sizeof paired);
    return status;
}

/* Mostly frames of few types and stations, so that commands are answered. */
static uint32_t pair_take(void) {
    static uint8_t frame[16];
    uint64_t count = below(8) > 0 ? 5 + below(3) : below(sizeof frame);
    uint32_t known = below(PAIR_ENTRIES + 1), status;
    struct port1_report report = {0, 0, 0, 0};
    report.kind = below(3) > 0 ? PORT1_FRAME : below(8);
    report.cause = below(2) == 0 ? 0 : below(6);
    report.first = paired.pair.past + below(100);
    report.past = report.first + 50;
    fill(frame, sizeof frame);
    frame[0] = (uint8_t)(16 + below(2));
    frame[1] = (uint8_t)(below(8) > 0 ? 0x83 : draw());
    frame[2] = (uint8_t)below(2);
    frame[2] |= (uint8_t)(below(2) << 7);
    if (below(64) == 0)
        fill(entries, sizeof entries);
    status = port1_pair_take(&paired.pair, entries, known, below(4), &report, frame, count, &paired.seen);
    return note_call(status, &paired, sizeof paired);
}

static const struct {
    const char *name;
    uint32_t (*call)(void);
} calls[] = {
    {"port1_line_feed", feed},
    {"port1_line_feed_high_first", feed_high_first},
    {"port1_line_push", push},
    {"port1_line_open", open_piece},
    {"port1_line_init", init},
    {"port1_send_frame", send_frame},
    {"port1_send_flag", send_flag},
    {"port1_send_idle", send_idle},
    {"port1_sender_init", make_sender},
    {"port1_send_align", send_align},
    {"port1_pair_init", make_pair},
    {"port1_pair_take", pair_take},
    {"port1_tap_init", tap_init},
    {"port1_tap_push", tap_push},
    {"port1_tap_feed", tap_feed},
    {"port1_rest_init", rest_init},
    {"port1_rest_push", rest_push},
    {"port1_clocks_init", clocks_init},
    {"port1_clocks_push", clocks_push},
    {"port1_clocks_open", clocks_open},
};

int main(void) {
    make_traffic();
    port1_line_init(&sound, 256, 0);
    for (uint32_t i = 0; i < STATES; i++) {
        make_state();
        for (uint32_t k = 0; k < sizeof calls / sizeof *calls; k++) {
            uint32_t status = calls[k].call();
            counts[k][status < STATUSES ? status : STATUSES - 1]++;
        }
    }
    printf("%016" PRIx64 "\n", hash);
    for (uint32_t k = 0; k < sizeof calls / sizeof *calls; k++) {
        printf("%s", calls[k].name);
        for (uint32_t status = 0; status < STATUSES; status++)
            printf(" %" PRIu32, counts[k][status]);
        printf("\n");
    }
    printf("reports");
    for (uint32_t kind = 0; kind < STATUSES; kind++)
        printf(" %" PRIu32, reports[kind]);
    printf("\n");
    return 0;
}
