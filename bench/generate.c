/* Writes a capture of one kind of traffic, or a dictionary.
 *
 *     generate BITS SEED KIND text|packed [LINE]
 *     generate dictionary TYPES
 *
 * BITS is the number of bits, of `pairs` that of pairs; LINE how many a line of text has, 80 unless given. The kinds:
 *
 *     polling    commands to stations, answers, idle lines; one frame in twenty has one bit flipped
 *     random     random bits
 *     ones       a line that is idle all the time
 *     flags      flags, one after the other
 *     long       frames of 250 to 256 octets
 *     stuffed    frames of 255s, which have the most inserted 0s
 *     short      frames of 5 to 9 octets, one flag between each two
 *     dialogueN  what stations say of whom the dictionary of N types knows all, N from 1 to 256, as in
 *                dialogue256: commands, and answers where it asks for them. Most answers begin within the
 *                window; some are missing, some late, some have no command, and of both frames one in a
 *                hundred has one bit flipped. Then there are flags, or an idle line
 *     pairs      polling on two lines: commands on the first, answers on the second; each rests at 1
 *                while the other sends
 *     arrivals   the same as bits in the order of arrival, one of each line in turn
 *     gated      the same, with bits of the second line only while it sends
 *     first      the first line of `pairs`, alone
 *     second     the second
 *
 * The dictionary of TYPES types is that of dialogueN; half of them are commands, the odd one, too. The same
 * words give the same capture, and the same dictionary. */
#include <stdint.h>
#include <stdio.h>
#include <stdlib.h>
#include <string.h>

static uint64_t state, left;
static int packed, two, alone, arrive, gated, sender, fill, held;
static unsigned marks, line = 80, types;

static uint32_t draw(uint32_t below) {
    state ^= state << 13;
    state ^= state >> 7;
    state ^= state << 17;
    return (uint32_t)((state >> 16) % below);
}

/* A mark of a capture: of one line a bit, of two lines a pair, or a bit with its line. */
static void put_mark(int mark) {
    if (!packed) {
        putchar(arrive ? "01oi"[mark] : '0' + mark);
        if (++marks % line == 0)
            putchar('\n');
        return;
    }
    held |= mark << fill;
    fill += two && !alone ? 2 : 1;
    if (fill == 8) {
        putchar(held);
        fill = held = 0;
    }
}

/* A bit of the line that sends; of two lines the other rests at 1. One of them may be written alone. */
static void put_bit(int bit) {
    int mark = two ? bit << sender | 2 >> sender : bit;
    if (left == 0)
        return;
    left--;
    if (!arrive) {
        put_mark(alone ? mark >> (alone - 1) & 1 : mark);
        return;
    }
    put_mark(mark & 1);
    if (left > 0 && (!gated || sender == 1)) {
        left--;
        put_mark(2 | mark >> 1);
    }
}

static void put_flag(void) {
    for (int i = 0; i < 8; i++)
        put_bit(0x7e >> i & 1);
}

static uint16_t check_of(const uint8_t *octets, size_t count) {
    uint16_t check = 0xffff;
    for (size_t i = 0; i < count; i++) {
        check ^= octets[i];
        for (int j = 0; j < 8; j++)
            check = check & 1 ? check >> 1 ^ 0x8408 : check >> 1;
    }
    return (uint16_t)~check;
}

/* A frame and the flag that closes it; `flipped` is the place of a raw bit to flip, or below 0. */
static void put_frame(uint8_t *octets, size_t count, int flipped) {
    uint16_t check = check_of(octets, count);
    octets[count++] = check & 0xff;
    octets[count++] = check >> 8;
    int ones = 0, place = 0;
    for (size_t i = 0; i < count; i++)
        for (int j = 0; j < 8; j++) {
            int bit = octets[i] >> j & 1;
            put_bit(bit ^ (place++ == flipped));
            ones = bit ? ones + 1 : 0;
            if (ones == 5) {
                put_bit(place++ == flipped);
                ones = 0;
            }
        }
    put_flag();
}

static void put_random(void) {
    uint32_t bits = draw(1 << 16);
    for (int i = 0; i < 16; i++)
        put_bit(bits >> i & 1);
}

static void put_ones(uint32_t count) {
    while (count-- > 0)
        put_bit(1);
}

/* A frame of so many octets, each 255 but where `most` says otherwise, and its flag. */
static void put_long(size_t count, uint32_t most) {
    uint8_t octets[258];
    for (size_t i = 0; i < count; i++)
        octets[i] = most ? (uint8_t)draw(most) : 0xff;
    put_frame(octets, count, -1);
}

/* A command and its answer, and at times an idle line. */
static void put_poll(void) {
    uint8_t octets[64];
    uint8_t station = (uint8_t)(16 + draw(16));
    uint8_t type = (uint8_t)draw(8);
    for (int answer = 0; answer < 2; answer++) {
        if (two) {
            sender = answer;
            put_flag();
        }
        size_t count = 3 + draw(answer ? 30 : 10);
        octets[0] = station;
        octets[1] = 0x83;
        octets[2] = (uint8_t)(type + 128 * answer);
        for (size_t i = 3; i < count; i++)
            octets[i] = draw(4) ? (uint8_t)draw(256) : 0xff;
        put_frame(octets, count, draw(10000) < 500 ? (int)draw((uint32_t)count * 8) : -1);
    }
    if (draw(64) == 0) {
        put_ones(15 + draw(40));
        if (!two)
            put_flag();
    }
}

/* A frame of so many octets with its check, as a command or an answer has them. */
static void put_short(size_t count) {
    uint8_t octets[16] = {(uint8_t)draw(17), 0x83};
    for (size_t i = 2; i < count - 2; i++)
        octets[i] = (uint8_t)draw(256);
    put_frame(octets, count - 2, -1);
}

/* The types of a dialogue: commands from 0 on, and 128 more than each its answer, if the dictionary has
 * that. How many octets come after the type, and which commands ask for an answer, within how many bits. */
enum { MOST_TYPES = 256, ANSWER = 128, MOST_DATA = 31, WINDOW = 64 };

static unsigned data_of(unsigned type) {
    return type < ANSWER ? (4 + 7 * type) % 20 : (9 + 11 * type) % (MOST_DATA + 1);
}

static int is_answered(unsigned command) { return command < types / 2 && command % 8 != 7; }

static void put_entry(unsigned type) {
    int answer = type >= ANSWER;
    printf("[[frame]]\ntype = %u\nname = \"%s-%u\"\nlength = %u\n", type, answer ? "answer" : "command",
           type % ANSWER, data_of(type));
    if (!answer && is_answered(type))
        printf("answered = true\nwindow = %d\n", WINDOW);
}

static void put_dictionary(void) {
    puts("version = 2");
    for (unsigned command = 0; command < types - types / 2; command++)
        put_entry(command);
    for (unsigned answer = 0; answer < types / 2; answer++)
        put_entry(ANSWER + answer);
}

/* How many types a dialogue has. */
static void use_types(const char *number) {
    unsigned long given = strtoul(number, NULL, 10);
    if (given < 1 || given > MOST_TYPES) {
        fputs("generate: a dialogue has 1 to 256 types\n", stderr);
        exit(2);
    }
    types = (unsigned)given;
}

/* A frame of a type and its flag. The data is random or, as often, mostly 0s and single bits; one frame in
 * a hundred has one bit flipped. */
static void put_said(uint8_t station, unsigned type) {
    uint8_t octets[3 + MOST_DATA + 2] = {station, 0x83, (uint8_t)type};
    size_t count = 3 + data_of(type);
    int full = draw(2) == 0;
    for (size_t i = 3; i < count; i++)
        octets[i] = full ? (uint8_t)draw(256) : draw(2) ? 0 : draw(8) ? (uint8_t)(1 << draw(8)) : 0xff;
    put_frame(octets, count, draw(100) == 0 ? (int)draw((uint32_t)count * 8) : -1);
}

/* What lies between two frames, after the flag that closes the first: more flags, or an idle line. */
static void put_flags(uint32_t count) {
    while (count-- > 0)
        put_flag();
}

static void put_idle(uint32_t ones) {
    put_ones(ones);
    put_flag();
}

/* What becomes of a command: of a hundred that ask for an answer two have none, and two a late one; of as
 * many that ask for none two have one. */
static void put_outcome(uint8_t station, unsigned command) {
    uint32_t fate = draw(100);
    if (command >= types / 2 || (is_answered(command) ? fate < 2 : fate >= 2))
        return;
    if (fate < 4)
        put_idle(WINDOW + draw(64));
    else
        put_flags(draw(4));
    put_said(station, ANSWER + command);
}

static void put_dialogue(void) {
    uint8_t station = (uint8_t)draw(17);
    unsigned command = draw(types - types / 2);
    put_said(station, command);
    put_outcome(station, command);
    if (draw(4) == 0)
        put_idle(15 + draw(46));
    else
        put_flags(draw(4));
}

/* Some traffic of a kind; 0 where there is no such kind. */
static int put_some(const char *kind) {
    if (strcmp(kind, "polling") == 0 || two)
        put_poll();
    else if (strcmp(kind, "random") == 0)
        put_random();
    else if (strcmp(kind, "ones") == 0)
        put_ones(64);
    else if (strcmp(kind, "flags") == 0)
        put_flag();
    else if (strcmp(kind, "long") == 0)
        put_long(248 + draw(7), 256);
    else if (strcmp(kind, "stuffed") == 0)
        put_long(64, 0);
    else if (strcmp(kind, "short") == 0)
        put_short(5 + draw(5));
    else if (types > 0)
        put_dialogue();
    else
        return 0;
    return 1;
}

/* Takes the kind apart: two lines, one of them or their bits as they arrive, and the types of a dialogue. */
static void use_kind(const char *kind) {
    if (strcmp(kind, "first") == 0)
        alone = 1;
    else if (strcmp(kind, "second") == 0)
        alone = 2;
    gated = strcmp(kind, "gated") == 0;
    arrive = gated || strcmp(kind, "arrivals") == 0;
    two = alone || arrive || strcmp(kind, "pairs") == 0;
    if (strncmp(kind, "dialogue", 8) == 0)
        use_types(kind + 8);
}

/* The head of a packed capture: its form, and how many marks it has. */
static void put_head(void) {
    fputs(arrive ? "TS2BITS3" : two && !alone ? "TS2BITS2" : "TS2BITS1", stdout);
    for (int i = 0; i < 8; i++)
        putchar((int)(left >> 8 * i & 0xff));
}

int main(int argc, char **argv) {
    if (argc == 3 && strcmp(argv[1], "dictionary") == 0) {
        use_types(argv[2]);
        put_dictionary();
        return 0;
    }
    if (argc != 5 && argc != 6) {
        fputs("generate BITS SEED KIND text|packed [LINE]\ngenerate dictionary TYPES\n", stderr);
        return 2;
    }
    left = strtoull(argv[1], NULL, 10);
    state = strtoull(argv[2], NULL, 10) * 2654435761u + 88172645463325252u;
    packed = strcmp(argv[4], "packed") == 0;
    use_kind(argv[3]);
    if (argc == 6)
        line = (unsigned)strtoul(argv[5], NULL, 10);
    if (packed)
        put_head();
    put_flag();
    while (left > 0)
        if (!put_some(argv[3])) {
            fputs("generate: no such kind\n", stderr);
            return 2;
        }
    if (packed && fill > 0)
        putchar(held);
    return 0;
}
