/* How many octets of stack each call of the C library takes, with what it calls: runs it on a stack of known content,
 * and counts the octets from the deepest that was changed. A call of the library has a row in the table below. What
 * is fed is `hardest` of capture.h, bit by bit where push takes it, and its octets reversed where the highest bit is to
 * be the first. */
#include "../bench/reversed.h"
#include "capture.h"
#include "port1.h"
#include <inttypes.h>
#include <stdio.h>
#include <string.h>

#define STACK 4096
#define CONTENT 0xa5

/* Calls a function on the stack that ends at this address. */
void on_stack(void *end, void (*call)(void));

#if defined(__x86_64__)
__asm__(".text\n.globl on_stack\non_stack:\n push %rbp\n mov %rsp, %rbp\n mov %rdi, %rsp\n call *%rsi\n"
        " mov %rbp, %rsp\n pop %rbp\n ret\n");
#elif defined(__aarch64__)
__asm__(".text\n.globl on_stack\non_stack:\n stp x29, x30, [sp, #-16]!\n mov x29, sp\n mov sp, x0\n blr x1\n"
        " mov sp, x29\n ldp x29, x30, [sp], #16\n ret\n");
#elif defined(__arm__)
__asm__(".syntax unified\n.text\n.balign 4\n.globl on_stack\n.type on_stack, %function\n"
#if defined(__thumb__)
        ".thumb\n.thumb_func\n"
#else
        ".arm\n"
#endif
        "on_stack:\n push {r4, lr}\n mov r4, sp\n mov sp, r0\n blx r1\n mov sp, r4\n pop {r4, pc}\n");
#elif defined(__riscv) && __riscv_xlen == 32
__asm__(".text\n.globl on_stack\non_stack:\n addi sp, sp, -16\n sw s0, 8(sp)\n sw ra, 12(sp)\n mv s0, sp\n mv sp, a0\n"
        " jalr a1\n mv sp, s0\n lw s0, 8(sp)\n lw ra, 12(sp)\n addi sp, sp, 16\n ret\n");
#else
#error "no stack is changed on this processor"
#endif

static uint64_t stack[STACK / 8];

static struct port1_line line;
static struct port1_sender sender;
static struct port1_report report;
static uint8_t sent[400], frame[256], has_begun;
static uint64_t at, bits, first;
static struct port1_entry entries[129];
static struct port1_pair pair;
static struct port1_seen seen;
static struct port1_tap tap;
static struct port1_rest rest;
static struct port1_clocks clocks;
static struct port1_arrival arrivals[64 * PORT1_TAP_ROOM];
static uint64_t past, arrived;
static uint8_t rests;

static const struct port1_wires wires = {{1, 0, 0, 0}, {1, 1, 0, 0}, {1, 2, 0, 0}, {1, 3, 0, 0}};

static void nothing(void) {}
static void init(void) { port1_line_init(&line, 256, 0); }
static void feed(void) {
    for (at = 0; at < 8 * sizeof hardest;)
        port1_line_feed(&line, hardest, sizeof hardest, &at, 8 * sizeof hardest, &report);
}
static void feed_high_first(void) {
    for (uint32_t i = 0; i < sizeof hardest; i++)
        for (at = 0; at < 8;)
            port1_line_feed_high_first(&line, reversed(hardest[i]), &at, &report);
}
static void push(void) {
    for (uint32_t i = 0; i < 8 * sizeof hardest; i++)
        port1_line_push(&line, hardest[i / 8] >> i % 8 & 1, &report);
}
static void open_piece(void) { port1_line_open(&line, &has_begun, &first); }
static void make_sender(void) { port1_sender_init(&sender); }
static void send_flag(void) { at = 0, port1_send_flag(&sender, sent, sizeof sent, &at, &bits); }
static void send_idle(void) { at = 0, port1_send_idle(&sender, sent, sizeof sent, &at, &bits); }
static void send_frame(void) { at = 0, port1_send_frame(&sender, frame, sizeof frame, sent, sizeof sent, &at, &bits); }

static void send_align(void) { at = 1, port1_send_align(&sender, sent, sizeof sent, &at, &bits); }
static void pair_init(void) { port1_pair_init(&pair); }
static void pair_take(void) {
    static const struct port1_report call = {PORT1_FRAME, 0, 8, 49}, reply = {PORT1_FRAME, 0, 65, 106};
    static const uint8_t octets[2][5] = {{16, 0x83, 0, 0xfd, 0xe5}, {16, 0x83, 128, 0xf5, 0x61}};
    entries[0].known = entries[0].answered = entries[128].known = 1;
    port1_pair_take(&pair, entries, 129, 0, &call, octets[0], 5, &seen);
    port1_pair_take(&pair, entries, 129, 0, &reply, octets[1], 5, &seen);
}

static void tap_init(void) { port1_tap_init(&tap, &wires, 1, 2, 3); }
static void tap_push(void) { at = 3, port1_tap_push(&tap, 5, &at, arrivals, PORT1_TAP_ROOM, &arrived); }
static void tap_feed(void) {
    static const uint8_t some[] = {0, 0, 10, 10, 15, 15, 15, 15, 15, 15, 15, 15, 15, 15, 0, 0, 10, 5, 5, 1, 1};
    static uint8_t samples[4 * sizeof some];
    for (uint32_t i = 0; i < sizeof samples; i++)
        samples[i] = some[i % sizeof some];
    for (at = 0; at < sizeof samples;)
        port1_tap_feed(&tap, samples, sizeof samples, 1, &at, arrivals, PORT1_TAP_ROOM, &arrived);
    at = 0;
    port1_tap_feed(&tap, samples, sizeof samples, 1, &at, arrivals, sizeof arrivals / sizeof *arrivals, &arrived);
}
static void tap_feed_runs(void) {
    uint64_t runs[] = {0x200, 0x20a, 0x20f, 0x80f, 0x200, 0x10a, 0x205, 0x201};
    for (at = 0; at < sizeof runs / sizeof *runs;)
        port1_tap_feed_runs(&tap, runs, sizeof runs / sizeof *runs, &at, arrivals, PORT1_TAP_ROOM, &arrived);
}
static void rest_init(void) { port1_rest_init(&rest, PORT1_SILENCE); }
static void rest_push(void) {
    static const struct port1_arrival arrival = {2, 1};
    port1_rest_push(&rest, &arrival, &rests);
}
static void rest_feed(void) {
    static const struct port1_arrival given[] = {{2, 0}, {1, 1}, {1, 0}};
    at = 0, port1_rest_feed(&rest, given, 3, &at, arrivals, PORT1_TAP_ROOM, &arrived);
}
static void clocks_init(void) { port1_clocks_init(&clocks, 256, 0); }
static void clocks_push(void) {
    for (uint32_t i = 0; i < 16 * sizeof hardest; i++) {
        const struct port1_arrival arrival = {(uint8_t)(1 + i % 2), hardest[i / 16] >> i / 2 % 8 & 1};
        port1_clocks_push(&clocks, &arrival, &report);
    }
}
static void clocks_feed(void) {
    for (uint32_t i = 0; i < 16 * sizeof hardest; i++) {
        const struct port1_arrival arrival = {(uint8_t)(1 + i % 2), hardest[i / 16] >> i / 2 % 8 & 1};
        at = 0, port1_clocks_feed(&clocks, &arrival, 1, &at, &report);
    }
}
static void clocks_open(void) { port1_clocks_open(&clocks, 2, &has_begun, &first, &past); }

static const struct {
    const char *name;
    void (*call)(void);
} calls[] = {
    {"port1_line_init", init},
    {"port1_line_feed", feed},
    {"port1_line_feed_high_first", feed_high_first},
    {"port1_line_push", push},
    {"port1_line_open", open_piece},
    {"port1_sender_init", make_sender},
    {"port1_send_flag", send_flag},
    {"port1_send_idle", send_idle},
    {"port1_send_frame", send_frame},
    {"port1_send_align", send_align},
    {"port1_pair_init", pair_init},
    {"port1_pair_take", pair_take},
    {"port1_tap_init", tap_init},
    {"port1_tap_push", tap_push},
    {"port1_tap_feed", tap_feed},
    {"port1_tap_feed_runs", tap_feed_runs},
    {"port1_rest_init", rest_init},
    {"port1_rest_push", rest_push},
    {"port1_rest_feed", rest_feed},
    {"port1_clocks_init", clocks_init},
    {"port1_clocks_push", clocks_push},
    {"port1_clocks_feed", clocks_feed},
    {"port1_clocks_open", clocks_open},
};

static uint32_t depth(void (*call)(void)) {
    uint8_t *octets = (uint8_t *)stack;
    uint32_t lowest = 0;
    memset(stack, CONTENT, sizeof stack);
    on_stack(octets + sizeof stack, call);
    while (lowest < sizeof stack && octets[lowest] == CONTENT)
        lowest++;
    return (uint32_t)sizeof stack - lowest;
}

int main(void) {
    memset(frame, 0xff, sizeof frame);
    for (uint32_t k = 0; k < sizeof calls / sizeof *calls; k++)
        printf("%s %" PRIu32 "\n", calls[k].name, depth(calls[k].call) - depth(nothing));
    return 0;
}
