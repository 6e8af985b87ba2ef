/* A faster peer of `port1 list`: eight bits at a time by a table of what each octet is after each run
 * of ones, as software HDLC receivers do it; an octet in which a run reaches six ones goes bit by bit.
 *
 *     table text|packed < CAPTURE
 */
#include "listing.h"

struct step {
    uint8_t data, bits, ones, apart;
};

static struct line line;
static struct step steps[6][256];
static uint8_t turned[256];

static void make_steps(void) {
    for (unsigned run = 0; run < 6; run++)
        for (unsigned octet_in = 0; octet_in < 256; octet_in++) {
            struct step step = {0, 0, (uint8_t)run, 0};
            for (int j = 0; j < 8; j++) {
                unsigned bit = octet_in >> j & 1;
                if (bit || step.ones != 5) {
                    step.data |= (uint8_t)(bit << step.bits);
                    step.bits++;
                }
                step.ones = bit ? step.ones + 1 : 0;
                step.apart |= step.ones > 5;
            }
            steps[run][octet_in] = step;
        }
    for (unsigned i = 0; i < 256; i++)
        for (int j = 0; j < 8; j++)
            turned[i] |= (uint8_t)((i >> j & 1) << (7 - j));
}

static void take_octet(uint8_t eight) {
    if (line.ones > 5 || steps[line.ones][eight].apart) {
        for (int j = 0; j < 8; j++)
            take(&line, eight >> j & 1);
        return;
    }
    struct step step = steps[line.ones][eight];
    line.place += 8;
    line.recent = line.recent << 8 | turned[eight];
    line.ones = step.ones;
    if (!line.open)
        return;
    unsigned held = line.count % 8;
    unsigned joined = line.octet >> (8 - held) | (unsigned)step.data << held;
    line.count += step.bits;
    held += step.bits;
    if (held >= 8) {
        if (line.stored < ROOM) {
            line.octets[line.stored++] = (uint8_t)joined;
            line.check = line.check >> 8 ^ table[(line.check ^ joined) & 0xff];
        }
        joined >>= 8;
        held -= 8;
    }
    line.octet = joined << (8 - held) & 0xff;
}

/* The eight marks that begin here as the bits of an octet, or -1 where they are not all marks. */
static int eight_marks(const uint8_t *marks) {
    uint64_t eight;
    memcpy(&eight, marks, 8);
    eight ^= 0x3030303030303030;
    if (eight & 0xfefefefefefefefe)
        return -1;
    return (int)(eight * 0x0102040810204080 >> 56);
}

static int take_text(const uint8_t *marks, size_t got) {
    for (size_t i = 0; i < got;) {
        int eight = i + 8 <= got ? eight_marks(marks + i) : -1;
        if (eight >= 0) {
            take_octet((uint8_t)eight);
            i += 8;
            continue;
        }
        if (!take_mark(&line, marks[i++]))
            return 2;
    }
    return 0;
}

int main(int argc, char **argv) {
    static uint8_t buffer[65536];
    uint64_t left = 0;
    int packed = read_form(argc, argv, "TS2BITS1", &left);
    size_t got;
    if (packed < 0)
        return 2;
    make_steps();
    while ((got = fread(buffer, 1, sizeof buffer, stdin)) > 0) {
        if (!packed && take_text(buffer, got) != 0)
            return 2;
        for (size_t i = 0; packed && i < got; i++) {
            if (left >= 8) {
                take_octet(buffer[i]);
                left -= 8;
                continue;
            }
            for (int j = 0; j < 8 && left > 0; j++, left--)
                take(&line, buffer[i] >> j & 1);
        }
    }
    say_open(&line);
    return 0;
}
