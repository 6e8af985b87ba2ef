/* The listing of a capture without a dictionary, bit by bit, as a C programmer would write it: what
 * plain.c, table.c and pairs.c share. */
#include <stdint.h>
#include <stdio.h>
#include <string.h>

enum { LONGEST = 256, ROOM = LONGEST + 2 };

/* What is known of one line. */
struct line {
    uint8_t octets[ROOM];
    uint64_t place, first, count;
    unsigned ones, stored, octet, recent;
    uint16_t check;
    int open;
    const char *front; /* of its lines of text, or NULL */
};

static uint16_t table[256];

static void make_table(void) {
    for (unsigned i = 0; i < 256; i++) {
        uint16_t value = (uint16_t)i;
        for (int j = 0; j < 8; j++)
            value = value & 1 ? value >> 1 ^ 0x8408 : value >> 1;
        table[i] = value;
    }
}

static void start(struct line *l) {
    l->open = 1;
    l->first = l->place;
    l->count = 0;
    l->stored = 0;
    l->octet = 0;
    l->check = 0xffff;
}

static void data_bit(struct line *l, int bit) {
    if (!l->open)
        return;
    l->octet = l->octet >> 1 | (unsigned)bit << 7;
    if (++l->count % 8 == 0 && l->stored < ROOM) {
        l->octets[l->stored++] = (uint8_t)l->octet;
        l->check = l->check >> 8 ^ table[(l->check ^ l->octet) & 0xff];
    }
}

static void put_front(const struct line *l) {
    if (l->front != NULL)
        fputs(l->front, stdout);
}

static void say(struct line *l, uint64_t past, const char *what) {
    put_front(l);
    printf("%llu %llu %s\n", (unsigned long long)l->first, (unsigned long long)past, what);
}

static void close_piece(struct line *l, uint64_t past) {
    if (!l->open || past <= l->first)
        return;
    /* the flag's own 0 and six 1s were taken as data */
    uint64_t data = l->count - 7;
    if ((l->recent & 0x1fff) == 0x1f7e)
        say(l, past, "damaged unstuffed");
    else if (data > 8 * ROOM)
        say(l, past, "overlong");
    else if (data < 32)
        say(l, past, "damaged short");
    else if (data % 8 != 0)
        say(l, past, "damaged unaligned");
    else if (l->check != 0xf0b8)
        say(l, past, "damaged fcs");
    else {
        static const char digits[] = "0123456789abcdef";
        char text[2 * ROOM + 1];
        for (unsigned i = 0; i < l->stored; i++) {
            text[2 * i] = digits[l->octets[i] >> 4];
            text[2 * i + 1] = digits[l->octets[i] & 15];
        }
        text[2 * l->stored] = 0;
        put_front(l);
        printf("%llu %llu frame %s\n", (unsigned long long)l->first, (unsigned long long)past, text);
    }
}

static void take(struct line *l, int bit) {
    l->place++;
    l->recent = l->recent << 1 | (unsigned)bit;
    if (bit) {
        l->ones++;
        if (l->ones < 7)
            data_bit(l, 1);
        else if (l->ones == 7) {
            uint64_t past = l->place - 7;
            if (l->open && past > l->first)
                say(l, past, "abort");
            l->open = 0;
        } else if (l->ones == 15) {
            l->first = l->place - 15;
            say(l, l->place, "idle");
        }
    } else {
        if (l->ones == 6 && l->place > 7) {
            close_piece(l, l->place - 8);
            start(l);
        } else if (l->ones != 5)
            data_bit(l, 0);
        l->ones = 0;
    }
}

static int is_space(uint8_t mark) { return mark == ' ' || mark == '\t' || mark == '\r' || mark == '\n'; }

/* The bit of an octet of a text, if it has one; 0 where it is neither a bit nor a space. */
static int take_mark(struct line *l, uint8_t mark) {
    if (mark == '0' || mark == '1')
        take(l, mark == '1');
    else if (!is_space(mark))
        return 0;
    return 1;
}

/* Whether the capture is packed, as the first word says; then its head is read, and how many bits or pairs it counts.
 * -1 where that is no good head. Makes the table. */
static int read_form(int argc, char **argv, const char *magic, uint64_t *left) {
    uint8_t head[16];
    make_table();
    if (argc < 2 || strcmp(argv[1], "packed") != 0)
        return 0;
    if (fread(head, 1, 16, stdin) != 16 || memcmp(head, magic, 8) != 0)
        return -1;
    for (int i = 7; i >= 0; i--)
        *left = *left << 8 | head[8 + i];
    return 1;
}

static void say_open(struct line *l) {
    if (l->open && l->place > l->first)
        say(l, l->place, "open");
}
