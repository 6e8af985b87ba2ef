/* Lists the reports of two lines with a clock each in samples from standard input, in the lines of
 * `port1 list --arrivals` without a dictionary: tap, rule of rest and decoders of the C library.
 *
 *     tap TXC TXD RXC RXD
 *
 * A sample is an octet, and the words are the bits of its wires, the lowest 0. A level counts once it stood in two
 * samples. */
#include "port1.h"
#include <stdio.h>
#include <stdlib.h>

#define MOST 4096
#define ROOM 4096
#define IDLE_ONES 15

static const char *const kinds[] = {"", "frame", "damaged", "overlong", "abort", "idle"};
static const char *const causes[] = {"", "unstuffed", "short", "unaligned", "fcs"};

struct bus {
    struct port1_tap tap;
    struct port1_rest rest;
    struct port1_clocks clocks;
};

/* Begins a line of the listing. */
static void begin(unsigned line, uint64_t first, uint64_t past, const char *word) {
    printf("%u %llu %llu %s", line, (unsigned long long)first, (unsigned long long)past, word);
}

static void print(unsigned line, const struct port1_line *from, const struct port1_report *report) {
    begin(line, report->first, report->past, kinds[report->kind]);
    if (report->kind == PORT1_FRAME) {
        putchar(' ');
        for (unsigned i = 0; i < from->count; i++)
            printf("%02x", (unsigned)from->octets[i]);
    }
    if (report->kind == PORT1_DAMAGED)
        printf(" %s", causes[report->cause]);
    putchar('\n');
}

/* Takes a bit of a line, and lists what it decides. */
static int push(struct port1_clocks *clocks, const struct port1_arrival *arrival) {
    struct port1_report report = {0, 0, 0, 0};
    if (port1_clocks_push(clocks, arrival, &report))
        return 0;
    if (report.kind != PORT1_NONE)
        print(arrival->line, arrival->line == 1 ? &clocks->first : &clocks->second, &report);
    return 1;
}

/* Takes a bit that arrives, and those that bring the second line to rest with it. */
static int take(struct bus *bus, const struct port1_arrival *arrival) {
    static const struct port1_arrival one = {2, 1};
    uint8_t rests = 0;
    if (port1_rest_push(&bus->rest, arrival, &rests) || !push(&bus->clocks, arrival))
        return 0;
    for (int k = 0; rests && k < IDLE_ONES; k++)
        if (!push(&bus->clocks, &one))
            return 0;
    return 1;
}

/* Takes the samples of some octets. */
static int feed(struct bus *bus, const uint8_t *octets, uint64_t count) {
    static struct port1_arrival arrivals[ROOM];
    uint64_t at = 0, arrived = 0;
    while (at < count) {
        if (port1_tap_feed(&bus->tap, octets, count, 1, &at, arrivals, ROOM, &arrived))
            return 0;
        for (uint64_t k = 0; k < arrived; k++)
            if (!take(bus, &arrivals[k]))
                return 0;
    }
    return 1;
}

/* Lists the piece of a line that nothing has ended. */
static void print_open(const struct port1_clocks *clocks, unsigned line) {
    uint64_t first = 0, past = 0;
    uint8_t has_begun = 0;
    if (port1_clocks_open(clocks, line, &has_begun, &first, &past) == PORT1_OK && has_begun)
        begin(line, first, past, "open\n");
}

static struct port1_wire wire(const char *word) {
    struct port1_wire made = {1, (uint8_t)atoi(word), 0, 0};
    return made;
}

int main(int argc, char **argv) {
    static struct bus bus;
    static struct port1_wires wires;
    static uint8_t octets[MOST];
    size_t count;
    if (argc != 5)
        return 2;
    wires.first_clock = wire(argv[1]);
    wires.first_data = wire(argv[2]);
    wires.second_clock = wire(argv[3]);
    wires.second_data = wire(argv[4]);
    if (port1_tap_init(&bus.tap, &wires, 1, 0, 0) || port1_rest_init(&bus.rest, PORT1_SILENCE)
        || port1_clocks_init(&bus.clocks, 256, 0))
        return 2;
    while ((count = fread(octets, 1, sizeof octets, stdin)) > 0)
        if (!feed(&bus, octets, count))
            return 2;
    print_open(&bus.clocks, 1);
    print_open(&bus.clocks, 2);
    return fflush(stdout) == 0 && !ferror(stdout) ? 0 : 2;
}
