/* Calls the C library on 10^6 lines and senders, each object ending at a page that must not be touched. Five lines of
 * eight have numbers that a decoder may have; the others have any. It sees that:
 *   - just the lines within the bounds of a decoder are accepted, and stay within them;
 *   - a refusal changes nothing, and a line of zeros is refused;
 *   - `at` stays within what was asked for, and a report has numbers that the header names;
 *   - a sender touches the bits of its call alone.
 * It counts the lines that are accepted and what the calls return. Status 3 is a line that went wrong, 4 an answer
 * that no call gave; 5 is a sender, and 6 a line of zeros that was taken.
 *
 *     wild [COUNT] */
#define _GNU_SOURCE
#include "port1.h"
#include <stdio.h>
#include <stdlib.h>
#include <string.h>
#include <sys/mman.h>

#define PAGE 4096
#define OCTETS 40
#define FRAME 300
#define SENT 100
#define LIMIT ((uint64_t)1 << 60)

/* Where no piece is open, no bit settles any. */
#define NEVER ((uint64_t)1 << 62)

static uint64_t state = 88172645463325252u;

static uint64_t draw(void) {
    state ^= state << 13;
    state ^= state >> 7;
    state ^= state << 17;
    return state;
}

/* So many octets at the end of a page, with pages that must not be touched before and after it. */
static void *at_end(size_t size) {
    char *pages = mmap(NULL, 3 * PAGE, PROT_NONE, MAP_PRIVATE | MAP_ANONYMOUS, -1, 0);
    if (pages == MAP_FAILED || mprotect(pages + PAGE, PAGE, PROT_READ | PROT_WRITE) != 0)
        exit(2);
    return pages + 2 * PAGE - size;
}

/* How a line is drawn. */
enum { CONSISTENT, NEARLY, NEAR, ANY, DRAWN };

static const char *const names[] = {"consistent", "with one number changed", "near a decoder", "of any content"};

/* A number from 0 to `most`, often at an end. */
static uint64_t up_to(uint64_t most) {
    uint64_t end = draw() % 16;
    return end == 0 ? 0 : end == 1 ? most : most == UINT64_MAX ? draw() : draw() % (most + 1);
}

/* Numbers that a decoder may have; its register, bits of an octet and octets may be any. */
static void fill_consistent(struct port1_line *line) {
    line->longest = 3 + up_to(253);
    line->count = (uint32_t)up_to(line->longest + 2);
    line->place = draw() % 4 ? LIMIT - up_to(400) : up_to(draw() % 2 ? 100000 : LIMIT);
    line->origin = draw() % 3 ? 0 : line->place - up_to(line->place < 99 ? line->place : 99);
    uint64_t bits = line->place - line->origin;
    line->data_bits = up_to(bits < 5000 ? bits : 5000);
    line->assembled = up_to(bits - line->data_bits);
    line->stored = up_to(line->assembled);
    line->folded = up_to(8 * line->assembled);
    line->settles_at = draw() % 2 ? NEVER : line->place + 8 - up_to(line->place < 3000 ? line->place : 3000);
    line->last_bits = up_to(0xffff);
}

/* Numbers near those of a decoder. */
static void fill_near(struct port1_line *line) {
    line->longest = draw() % 300;
    line->count = (uint32_t)(draw() % 262);
    line->place = LIMIT - draw() % 400;
    line->origin = draw() % 3 ? 0 : line->place - draw() % 99;
    line->assembled = draw() % 5000;
    line->data_bits = draw() % 5000;
    line->stored = draw() % 700;
    line->folded = draw() % 5600;
    line->settles_at = draw() % 2 ? NEVER : line->place + 8 - draw() % 3000;
    line->last_bits = draw() % 0x11000;
}

/* Any octets, and numbers as the way says, which is returned. Five lines of eight are consistent. */
static int fill(struct port1_line *line) {
    static const int ways[] = {CONSISTENT, CONSISTENT, CONSISTENT, CONSISTENT, CONSISTENT, NEARLY, NEAR, ANY};
    int way = ways[draw() % 8];
    for (size_t k = 0; k < sizeof *line; k++)
        ((uint8_t *)line)[k] = (uint8_t)draw();
    if (way == CONSISTENT || way == NEARLY)
        fill_consistent(line);
    if (way == NEARLY)
        ((uint64_t *)line)[draw() % 11] = draw() % 2 ? draw() : LIMIT + draw() % 3 - 1;
    if (way == NEAR)
        fill_near(line);
    return way;
}

/* Whether the numbers are within the bounds of a decoder: IsWithin in crates/bus_line/specs/Words.antt. */
static int is_alive(const struct port1_line *line) {
    return line->longest >= 3 && line->longest <= 256 && line->count <= line->longest + 2 && line->place <= LIMIT
        && line->origin <= line->place && line->settles_at >= 8
        && (line->settles_at == NEVER || line->settles_at <= line->place + 8)
        && line->data_bits <= line->place - line->origin
        && line->assembled <= line->place - line->origin - line->data_bits && line->stored <= line->assembled
        && line->folded <= 8 * line->assembled && line->last_bits <= 0xffff;
}

static void fill_octets(uint8_t *octets) {
    for (int k = 0; k < OCTETS; k++)
        octets[k] = (uint8_t)(draw() % 3 ? draw() : draw() % 2 ? 0xff : 0x7e);
}

static int bit(const uint8_t *octets, uint64_t i) { return octets[i / 8] >> i % 8 & 1; }

/* One call of a sender with any content, by octets that end at a page's end. Returns its status, or 9 where it
 * did what it must not. */
static uint32_t send_once(struct port1_sender *sender, uint8_t *frame, uint8_t *end, uint64_t *at, uint64_t *bits) {
    static uint8_t before[SENT];
    uint64_t count = draw() % (SENT + 1), length = draw() % 4 ? 2 + draw() % 30 : draw() % FRAME;
    uint8_t *octets = end - count;
    for (size_t k = 0; k < count; k++)
        before[k] = octets[k] = (uint8_t)draw();
    for (size_t k = 0; k < FRAME; k++)
        frame[k] = (uint8_t)(draw() % 2 ? 0xff : draw());
    sender->behind_flag = (uint32_t)(draw() % 8 ? draw() % 2 : draw());
    struct port1_sender was = *sender;
    uint64_t begin = draw() % (8 * count + 9), told = draw();
    *at = begin;
    *bits = told;
    uint64_t call = draw() % 3;
    uint32_t status = call == 0   ? port1_send_flag(sender, octets, count, at, bits)
                      : call == 1 ? port1_send_idle(sender, octets, count, at, bits)
                                  : port1_send_frame(sender, frame + FRAME - length, length, octets, count, at,
                                                     bits);
    uint64_t first = begin, behind = status == PORT1_OK ? *at : begin;
    if (status != PORT1_OK && (memcmp(sender, &was, sizeof was) || *at != begin))
        return 9;
    if (status != PORT1_OK && status != PORT1_NO_ROOM && *bits != told)
        return 9;
    if (status == PORT1_NO_ROOM && begin + *bits <= 8 * count)
        return 9;
    if (status == PORT1_OK && (*at != begin + *bits || *at > 8 * count))
        return 9;
    for (uint64_t i = 0; i < 8 * count; i++)
        if ((i < first || i >= behind) && bit(octets, i) != bit(before, i))
            return 9;
    return status;
}

/* Whether the kind and the cause are numbers that the header names. */
static int is_named(const struct port1_report *report) {
    if (report->kind == PORT1_DAMAGED)
        return report->cause >= PORT1_UNSTUFFED && report->cause <= PORT1_FCS;
    return report->kind <= PORT1_IDLE && report->cause == 0;
}

/* What calls on lines write, each object at the end of a page, and counts of lines and statuses. */
static struct port1_line *line;
static struct port1_report *report;
static uint64_t *at, *first;
static uint8_t *octets, *has_begun;
static unsigned long drawn[DRAWN], alive[DRAWN], feeds[5], sends[6];

/* Takes bits, in every fourth call those of one octet, the highest first. Returns 0 where it did what it must not. */
static int feed_once(void) {
    struct port1_line before = *line;
    struct port1_report told = *report;
    int is_high_first = draw() % 4 == 0;
    uint64_t end = draw() % 4 ? 8 * OCTETS : draw() % 340, begin = draw() % 330;
    if (is_high_first) {
        end = 8;
        begin %= 10;
    }
    *at = begin;
    uint32_t status = is_high_first ? port1_line_feed_high_first(line, octets[0], at, report)
                                    : port1_line_feed(line, octets, OCTETS, at, end, report);
    if (status > PORT1_BAD_ARGUMENT || (status == PORT1_BAD_ARGUMENT) != (begin > end || end > 8 * OCTETS))
        return 0;
    feeds[status]++;
    if (status == PORT1_BAD_STATE || status == PORT1_BAD_ARGUMENT)
        return !memcmp(line, &before, sizeof before) && !memcmp(report, &told, sizeof told) && *at == begin;
    if (report->kind == PORT1_NONE && (status == PORT1_OK ? *at != end : *at >= end || line->place != LIMIT))
        return 0;
    if (report->kind != PORT1_NONE && status != PORT1_OK)
        return 0;
    return *at >= begin && *at <= end && line->longest == before.longest && line->origin == before.origin
        && line->place == before.place + (*at - begin) && is_named(report) && is_alive(line);
}

/* Takes one more bit, and asks for the open piece. Returns 0 where it did what it must not. */
static int push_once(void) {
    uint64_t was = *first;
    uint32_t status = port1_line_push(line, (uint8_t)draw(), report);
    if (status == PORT1_OK && (!is_named(report) || !is_alive(line)))
        return 0;
    status = port1_line_open(line, has_begun, first);
    return status != PORT1_OK || *has_begun == 1 || (*has_begun == 0 && *first == was);
}

/* Draws a line, and calls all on it. Returns 0 where a call did what it must not. */
static int try_line(void) {
    int way = fill(line), is_one = is_alive(line);
    drawn[way]++;
    alive[way] += (unsigned long)is_one;
    fill_octets(octets);
    if ((port1_line_open(line, has_begun, first) == PORT1_OK) != is_one)
        return 0;
    return feed_once() && push_once();
}

static void print_share(const char *name, unsigned long all, unsigned long accepted) {
    printf("lines %s: %lu, accepted %.1f %%\n", name, all, all == 0 ? 0 : 100 * (double)accepted / (double)all);
}

static void print_counts(void) {
    unsigned long all = 0, accepted = 0;
    for (int way = 0; way < DRAWN; way++) {
        print_share(names[way], drawn[way], alive[way]);
        all += drawn[way];
        accepted += alive[way];
    }
    print_share("in all", all, accepted);
    printf("taken %lu, at the last place %lu, refused for the state %lu, for an argument %lu\n", feeds[PORT1_OK],
           feeds[PORT1_PLACE_LIMIT], feeds[PORT1_BAD_STATE], feeds[PORT1_BAD_ARGUMENT]);
    printf("sent %lu, refused for the length %lu, for the state %lu, for an argument %lu, for room %lu\n",
           sends[PORT1_OK], sends[PORT1_BAD_LENGTH], sends[PORT1_BAD_STATE], sends[PORT1_BAD_ARGUMENT],
           sends[PORT1_NO_ROOM]);
}

/* Whether every consistent line was accepted and some others were, and each answer was given. */
static int is_all_seen(void) {
    static const int fed[] = {PORT1_OK, PORT1_PLACE_LIMIT, PORT1_BAD_STATE, PORT1_BAD_ARGUMENT};
    static const int sent[] = {PORT1_OK, PORT1_BAD_LENGTH, PORT1_BAD_STATE, PORT1_BAD_ARGUMENT, PORT1_NO_ROOM};
    int is_seen = alive[CONSISTENT] > 0 && alive[CONSISTENT] == drawn[CONSISTENT] && alive[NEARLY] > 0
        && alive[NEAR] > 0;
    for (size_t k = 0; k < sizeof fed / sizeof *fed; k++)
        is_seen = is_seen && feeds[fed[k]] > 0;
    for (size_t k = 0; k < sizeof sent / sizeof *sent; k++)
        is_seen = is_seen && sends[sent[k]] > 0;
    return is_seen;
}

int main(int argc, char **argv) {
    long count = argc > 1 ? atol(argv[1]) : 1000000;
    struct port1_sender *sender = at_end(sizeof *sender);
    uint8_t *frame = at_end(FRAME), *sent = (uint8_t *)at_end(SENT) + SENT;
    uint64_t *bits = at_end(sizeof *bits);
    line = at_end(sizeof *line);
    report = at_end(sizeof *report);
    at = at_end(sizeof *at);
    first = at_end(sizeof *first);
    octets = at_end(OCTETS);
    has_begun = at_end(1);
    memset(report, 0, sizeof *report);
    memset(line, 0, sizeof *line);
    *first = *has_begun = 0;
    if (port1_line_push(line, 1, report) != PORT1_BAD_STATE)
        return 6;
    for (long i = 0; i < count; i++) {
        if (!try_line())
            return 3;
        uint32_t status = send_once(sender, frame, sent, at, bits);
        if (status > PORT1_NO_ROOM)
            return 5;
        sends[status]++;
    }
    print_counts();
    return is_all_seen() ? 0 : 4;
}
