/* Nanoseconds for an octet of a packed capture, fed in chunks of 1, 2, 7, 8, 32 and 4096 octets. It is fed to the C
 * library, and to the HDLC receivers of libspandsp and libosmocore where these are installed. A table on standard
 * output; the fastest of RUNS runs, 9 unless given. Each says how many good frames it found, which must be alike for
 * all but the first frames of libspandsp, whose receiver wants a flag or two before it begins.
 *
 *     feed CAPTURE [RUNS]
 *
 * With the number of a receiver, from 0 on in the order of the table, and of a chunk's octets it feeds that one once.
 * It does so by the function `drive`, for a program that counts instructions. The status is 3 where the receiver is
 * not installed.
 *
 *     feed CAPTURE 1 RECEIVER OCTETS */
#define _GNU_SOURCE
#include "port1.h"
#include "reversed.h"
#include <dlfcn.h>
#include <stdio.h>
#include <stdlib.h>
#include <string.h>
#include <time.h>

static long frames;

/* ---- the C library */

static struct port1_line line;

static int begin_port1(void) { return port1_line_init(&line, 256, 0) == PORT1_OK; }

static void feed_port1(const uint8_t *octets, size_t count) {
    uint64_t at = 0;
    struct port1_report report = {0};
    while (at < 8 * count && port1_line_feed(&line, octets, count, &at, 8 * count, &report) == PORT1_OK)
        frames += report.kind == PORT1_FRAME;
}

/* Octets whose first bit is the highest. */
static void feed_port1_high_first(const uint8_t *octets, size_t count) {
    struct port1_report report = {0};
    for (size_t i = 0; i < count; i++) {
        uint64_t at = 0;
        while (at < 8 && port1_line_feed_high_first(&line, octets[i], &at, &report) == PORT1_OK)
            frames += report.kind == PORT1_FRAME;
    }
}

static void push_port1(const uint8_t *octets, size_t count) {
    struct port1_report report = {0};
    for (size_t i = 0; i < 8 * count && port1_line_push(&line, octets[i / 8] >> i % 8 & 1, &report) == PORT1_OK; i++)
        frames += report.kind == PORT1_FRAME;
}

/* ---- libspandsp, which takes the highest bit of an octet first */

static void *spandsp;
static void *(*rx_init)(void *, int, int, int, void (*)(void *, const uint8_t *, int, int), void *);
static void (*rx_put)(void *, const uint8_t *, int);
static void (*rx_put_bit)(void *, int);

static void spandsp_frame(void *unused, const uint8_t *octets, int count, int is_good) {
    (void)unused, (void)octets;
    frames += count >= 0 && is_good;
}

static int begin_spandsp(void) {
    void *library = dlopen("libspandsp.so.2", RTLD_NOW);
    if (library == NULL)
        return 0;
    *(void **)&rx_init = dlsym(library, "hdlc_rx_init");
    *(void **)&rx_put = dlsym(library, "hdlc_rx_put");
    *(void **)&rx_put_bit = dlsym(library, "hdlc_rx_put_bit");
    if (rx_init == NULL || rx_put == NULL || rx_put_bit == NULL)
        return 0;
    spandsp = rx_init(spandsp, 0, 0, 1, spandsp_frame, NULL);
    return spandsp != NULL;
}

static void feed_spandsp(const uint8_t *octets, size_t count) { rx_put(spandsp, octets, (int)count); }

static void feed_spandsp_bits(const uint8_t *octets, size_t count) {
    for (size_t i = 0; i < 8 * count; i++)
        rx_put_bit(spandsp, octets[i / 8] >> i % 8 & 1);
}

/* ---- libosmocore */

static union {
    uint8_t octets[256];
    uint64_t aligned;
} osmo;
static uint8_t osmo_frame[300];
static int (*osmo_decode)(void *, const uint8_t *, int, int *, uint8_t *, int);

static int begin_osmo(void) {
    void (*init)(void *, uint32_t);
    void *library = dlopen("libosmocore.so.19", RTLD_NOW);
    if (library == NULL)
        return 0;
    *(void **)&init = dlsym(library, "osmo_isdnhdlc_rcv_init");
    *(void **)&osmo_decode = dlsym(library, "osmo_isdnhdlc_decode");
    if (init == NULL || osmo_decode == NULL)
        return 0;
    init(&osmo, 0);
    return 1;
}

static void feed_osmo(const uint8_t *octets, size_t count) {
    while (count > 0) {
        int taken = 0;
        frames += osmo_decode(&osmo, octets, (int)count, &taken, osmo_frame, sizeof osmo_frame) > 0;
        octets += taken;
        count -= (size_t)taken;
    }
}

/* ---- measuring */

static const struct peer {
    const char *name;
    int (*begin)(void);
    void (*feed)(const uint8_t *, size_t);
    int is_reversed;
} peers[] = {
    {"port1_line_feed", begin_port1, feed_port1, 0},
    {"port1_line_feed_high_first", begin_port1, feed_port1_high_first, 1},
    {"port1_line_push", begin_port1, push_port1, 0},
    {"hdlc_rx_put", begin_spandsp, feed_spandsp, 1},
    {"hdlc_rx_put_bit", begin_spandsp, feed_spandsp_bits, 0},
    {"osmo_isdnhdlc_decode", begin_osmo, feed_osmo, 0},
};

static const size_t chunks[] = {1, 2, 7, 8, 32, 4096};

static double now(void) {
    struct timespec t;
    clock_gettime(CLOCK_PROCESS_CPUTIME_ID, &t);
    return (double)t.tv_sec * 1e9 + (double)t.tv_nsec;
}

__attribute__((noinline)) void drive(const struct peer *peer, const uint8_t *octets, size_t count, size_t chunk);

void drive(const struct peer *peer, const uint8_t *octets, size_t count, size_t chunk) {
    for (size_t at = 0; at < count; at += chunk)
        peer->feed(octets + at, count - at < chunk ? count - at : chunk);
}

static double run(const struct peer *peer, const uint8_t *octets, size_t count, size_t chunk) {
    frames = 0;
    peer->begin();
    double begun = now();
    drive(peer, octets, count, chunk);
    return (now() - begun) / (double)count;
}

int main(int argc, char **argv) {
    static uint8_t octets[1 << 24], back[1 << 24];
    FILE *capture = argc > 1 ? fopen(argv[1], "rb") : NULL;
    int runs = argc > 2 ? atoi(argv[2]) : 9;
    if (capture == NULL || fseek(capture, 16, SEEK_SET) != 0)
        return 2;
    size_t count = fread(octets, 1, sizeof octets, capture);
    for (size_t k = 0; k < count; k++)
        back[k] = reversed(octets[k]);
    if (argc > 4) {
        const struct peer *peer = &peers[(size_t)atoi(argv[3]) % (sizeof peers / sizeof *peers)];
        if (!peer->begin())
            return 3;
        drive(peer, peer->is_reversed ? back : octets, count, (size_t)atoi(argv[4]));
        return 0;
    }
    printf("%-26s", "ns an octet, chunks of");
    for (size_t c = 0; c < sizeof chunks / sizeof *chunks; c++)
        printf(" %7zu", chunks[c]);
    printf("   frames\n");
    for (size_t p = 0; p < sizeof peers / sizeof *peers; p++) {
        if (!peers[p].begin()) {
            printf("%-26s is not there\n", peers[p].name);
            continue;
        }
        printf("%-26s", peers[p].name);
        for (size_t c = 0; c < sizeof chunks / sizeof *chunks; c++) {
            double least = 1e18;
            for (int r = 0; r < runs; r++) {
                double took = run(&peers[p], peers[p].is_reversed ? back : octets, count, chunks[c]);
                least = took < least ? took : least;
            }
            printf(" %7.2f", least);
        }
        printf(" %8ld\n", frames);
    }
    return 0;
}
