/* Lists a well-formed packed capture from standard input, in the lines of `port1 list` without a dictionary. A bad
 * head or a short body ends it with status 2, and what follows the last bit is not looked at.
 *
 *     list [CHUNK]
 *
 * CHUNK is how many octets are fed at a time, 4096 unless given. */
#include "port1.h"
#include <stdio.h>
#include <stdlib.h>
#include <string.h>

#define MOST 4096
#define MOST_BITS ((uint64_t)1 << 60)

static const char *const kinds[] = {"", "frame", "damaged", "overlong", "abort", "idle"};
static const char *const causes[] = {"", "unstuffed", "short", "unaligned", "fcs"};

/* Begins a line of the listing: the places of the first bit and just past the last, and a word. */
static void begin(uint64_t first, uint64_t past, const char *word) {
    printf("%llu %llu %s", (unsigned long long)first, (unsigned long long)past, word);
}

static void print(const struct port1_line *line, const struct port1_report *report) {
    begin(report->first, report->past, kinds[report->kind]);
    if (report->kind == PORT1_FRAME) {
        putchar(' ');
        for (unsigned i = 0; i < line->count; i++)
            printf("%02x", (unsigned)line->octets[i]);
    }
    if (report->kind == PORT1_DAMAGED)
        printf(" %s", causes[report->cause]);
    putchar('\n');
}

/* Feeds the first `bits` bits of these octets. */
static uint32_t feed(struct port1_line *line, const uint8_t *octets, uint64_t count, uint64_t bits) {
    uint64_t at = 0;
    while (at < bits) {
        struct port1_report report = {0, 0, 0, 0};
        uint32_t status = port1_line_feed(line, octets, count, &at, bits, &report);
        if (status != PORT1_OK)
            return status;
        if (report.kind != PORT1_NONE)
            print(line, &report);
    }
    return PORT1_OK;
}

int main(int argc, char **argv) {
    static struct port1_line line;
    static uint8_t octets[MOST];
    size_t chunk = argc > 1 ? (size_t)strtoul(argv[1], NULL, 10) : MOST;
    uint64_t left = 0, first = 0;
    uint8_t has_begun = 0;
    if (chunk < 1 || chunk > MOST)
        return 2;
    if (fread(octets, 1, 16, stdin) != 16 || memcmp(octets, "TS2BITS1", 8) != 0)
        return 2;
    for (int i = 0; i < 8; i++)
        left |= (uint64_t)octets[8 + i] << 8 * i;
    if (left > MOST_BITS || port1_line_init(&line, 256, 0) != PORT1_OK)
        return 2;
    while (left > 0) {
        uint64_t count = fread(octets, 1, chunk, stdin);
        uint64_t bits = 8 * count < left ? 8 * count : left;
        if (count == 0 || feed(&line, octets, count, bits) != PORT1_OK)
            return 2;
        left -= bits;
    }
    if (port1_line_open(&line, &has_begun, &first) == PORT1_OK && has_begun)
        begin(first, line.place, "open\n");
    return fflush(stdout) == 0 && !ferror(stdout) ? 0 : 2;
}
