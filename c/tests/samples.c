/* Calls of the C library on samples, and what each is to do: what c/include/port1.h says of taps, of the rule of rest
 * and of two lines with a clock each. Each that does otherwise is a line on standard output. It is compiled as C99, C11
 * and C++. */
#include "want.h"

static uint8_t octets[9];

/* Two lines of two wires each, from the lowest bit up; the second line's clock is inverted. */
static const struct port1_wires wires = {{1, 0, 0, 0}, {1, 1, 0, 0}, {1, 2, 9, 0}, {1, 3, 0, 0}};
static struct port1_tap tap;
static struct port1_arrival arrivals[2 * PORT1_TAP_ROOM]; /* with room for a tap also behind some bits */

/* A clock that rises brings the data just before; the first line's bit comes first, and other bits say nothing. */
static void tap_bits(void) {
    static const struct {
        uint8_t octets[4];
        uint64_t count, arrived;
        struct port1_arrival wanted[2];
    } rows[] = {{{4, 4, 5, 5}, 4, 1, {{1, 0}, {0, 0}}}, {{6, 5, 5, 5}, 4, 1, {{1, 1}, {0, 0}}},
                {{4, 4, 0, 0}, 4, 1, {{2, 0}, {0, 0}}}, {{0xfe, 0xf3, 0, 0}, 2, 2, {{1, 1}, {2, 1}}},
                {{5, 5, 5, 5}, 4, 0, {{0, 0}, {0, 0}}}, {{1, 5, 1, 1}, 3, 1, {{2, 0}, {0, 0}}}};
    for (size_t k = 0; k < sizeof rows / sizeof *rows; k++) {
        uint64_t at = 0, arrived = 9;
        memset(&tap, 0xa5, sizeof tap);
        WANT(port1_tap_init(&tap, &wires, 0, 2, 0) == PORT1_OK && tap.samples == 0 && tap.begun == 0);
        WANT(port1_tap_feed(&tap, rows[k].octets, rows[k].count, 1, &at, arrivals, sizeof arrivals / sizeof *arrivals,
                            &arrived) == PORT1_OK);
        WANT(at == rows[k].count && tap.samples == at && arrived == rows[k].arrived);
        WANT(memcmp(arrivals, rows[k].wanted, arrived * sizeof *arrivals) == 0);
    }
}

/* A level counts once it stood in three samples, a sample may have several octets, and the facts count both lines. */
static void tap_facts(void) {
    static const uint8_t samples[] = {7, 6, 7, 6, 7, 6, 7, 7, 7, 7, 7, 6, 7, 6, 7, 6, 7, 7, 7, 7, 7, 7, 99};
    static const struct port1_wires high = {{1, 8, 0, 0}, {1, 9, 0, 0}, {0, 1, 1, 0}, {0, 2, 1, 0}};
    uint64_t at = 0, arrived = 0;
    WANT(port1_tap_init(&tap, &high, 2, 0, 0) == PORT1_OK);
    WANT(port1_tap_feed(&tap, samples, sizeof samples, 2, &at, arrivals, PORT1_TAP_ROOM, &arrived) == PORT1_OK);
    WANT(at == 11 && arrived == 1 && arrivals[0].line == 1 && arrivals[0].bit == 1);
    WANT(tap.first.bits.count == 1 && tap.first.bits.first == 10 && tap.first.clock_changes.count == 1);
    WANT(tap.first_clock.level == 1 && tap.first_data.level == 1 && tap.second.bits.count == 0 && tap.begun);
}

static uint64_t draw(void) {
    static uint64_t state = 88172645463325252u;
    state ^= state << 13;
    state ^= state >> 7;
    state ^= state << 17;
    return state;
}

/* Samples of four wires, each of which changes with one in `slow` of them, but for those that stand for a while. */
enum { SAMPLES = 1200 };
static uint8_t samples[SAMPLES];

static void fill_samples(unsigned slow) {
    for (size_t k = 0; k < SAMPLES; k++) {
        samples[k] = k == 0 ? 0 : samples[k - 1];
        for (unsigned wire = 0; wire < 4 && k % 500 < 400; wire++)
            samples[k] ^= (uint8_t)((draw() % slow == 0) << wire);
    }
}

/* The levels that count after sample `at`: of each wire the level that stood in the last `hold` + 1 samples, if one did. */
static unsigned counted_after(size_t at, size_t hold, unsigned counted) {
    unsigned same = 15, now = samples[at] ^ 4u;
    for (size_t back = 1; back <= hold; back++)
        same &= ~(now ^ samples[at > back ? at - back : 0] ^ 4u);
    return (counted & ~same) | (now & same);
}

/* What these samples are to bring, and with which of them the last bit of each line came. */
static struct {
    struct port1_arrival arrivals[32 * SAMPLES];
    size_t count, last[2];
} wanted;

static void want_bit(unsigned line, unsigned bit) {
    wanted.arrivals[wanted.count].line = (uint8_t)(line + 1);
    wanted.arrivals[wanted.count++].bit = (uint8_t)bit;
}

/* Where the clock of a line rises, the level of its data just before; behind a stop of that clock after fifteen 1s. */
static void want_line(unsigned line, unsigned before, unsigned counted, size_t at, size_t rest) {
    int is_late = rest > 0 && wanted.last[line] > 0 && at - wanted.last[line] > rest;
    if (((~before & counted) >> 2 * line & 1) == 0)
        return;
    for (unsigned ones = 0; is_late && ones < 15; ones++)
        want_bit(line, 1);
    want_bit(line, before >> (2 * line + 1) & 1);
    wanted.last[line] = at;
}

static void want_samples(size_t hold, size_t rest) {
    unsigned counted = samples[0] ^ 4u;
    memset(&wanted, 0, sizeof wanted);
    for (size_t at = 1; at < SAMPLES; at++) {
        unsigned before = counted;
        counted = counted_after(at, hold, counted);
        want_line(0, before, counted, at, rest);
        want_line(1, before, counted, at, rest);
    }
}

/* Many samples at once bring the same bits, whatever room there is, and however long a level has to stand. */
static void tap_blocks(void) {
    static const struct {
        uint32_t hold;
        unsigned slow, rest;
        uint64_t room;
    } rows[] = {{0, 2, 0, 4096}, {1, 2, 0, 4096}, {1, 2, 9, 4096}, {0, 3, 1, 2048},  {1, 9, 20, 2079},
                {2, 3, 0, 4096}, {9, 3, 5, 4096}, {1, 3, 4, 2047}, {0, 4, 30, 9999}, {1, 5, 7, PORT1_TAP_ROOM}};
    static struct port1_arrival got[32 * SAMPLES];
    for (size_t k = 0; k < sizeof rows / sizeof *rows; k++) {
        uint64_t at = 0, all = 0, arrived = 9;
        fill_samples(rows[k].slow);
        want_samples(rows[k].hold, rows[k].rest);
        WANT(port1_tap_init(&tap, &wires, rows[k].hold, 2, rows[k].rest) == PORT1_OK);
        for (; at < SAMPLES; all += arrived) {
            WANT(port1_tap_feed(&tap, samples, SAMPLES, 1, &at, got + all, rows[k].room, &arrived) == PORT1_OK);
            WANT(at == SAMPLES || arrived + PORT1_TAP_ROOM > rows[k].room);
        }
        WANT(all == wanted.count && all > 30 && memcmp(got, wanted.arrivals, all * sizeof *got) == 0);
    }
}

/* Runs of samples: they stop where the room does, and say how many are left. */
static void tap_runs(void) {
    uint64_t count = LIMIT - 3, arrived = 9, at = 0;
    WANT(port1_tap_init(&tap, &wires, 1, 2, 0) == PORT1_OK);
    WANT(port1_tap_push(&tap, 6, &count, arrivals, PORT1_TAP_ROOM, &arrived) == PORT1_OK && count == 0 && arrived == 0);
    count = 3;
    WANT(port1_tap_push(&tap, 1, &count, arrivals, PORT1_TAP_ROOM, &arrived) == PORT1_OK);
    WANT(count == 1 && arrived == 2 && tap.samples == LIMIT - 1 && arrivals[0].bit == 1 && arrivals[1].line == 2);
    WANT(port1_tap_push(&tap, 1, &count, arrivals, PORT1_TAP_ROOM, &arrived) == PORT1_OK && count == 0 && arrived == 0);
    count = 1;
    WANT(port1_tap_push(&tap, 1, &count, arrivals, PORT1_TAP_ROOM, &arrived) == PORT1_PLACE_LIMIT && count == 1);
    WANT(port1_tap_feed(&tap, octets, 1, 1, &at, arrivals, PORT1_TAP_ROOM, &arrived) == PORT1_PLACE_LIMIT && at == 0);
    WANT(tap.samples == LIMIT && tap.first.bits.last == LIMIT - 2 && tap.second.bits.count == 1);
}

/* A run: so many samples that are the same. */
static uint64_t run_of(uint64_t count, uint64_t sample) { return count << 8 | sample; }

/* The same by blocks of runs, whatever room there is: the run that the room ends in has the rest of its samples. */
static void tap_blocks_of_runs(void) {
    static const uint64_t given[] = {0x303, 0x5, 0x402, 0x301, 0x10c, 0x107, 0x200, 0x2ff, 0x306, 0x301, 0x20a, 0x805};
    enum { GIVEN = sizeof given / sizeof *given };
    static struct port1_arrival wanted[32 * GIVEN], got[32 * GIVEN];
    for (uint64_t room = 0; room < 3 * PORT1_TAP_ROOM; room++) {
        static struct port1_tap one;
        uint64_t runs[GIVEN], count = 0, all = 0, at = 0, arrived = 9;
        memcpy(runs, given, sizeof runs);
        WANT(port1_tap_init(&one, &wires, 1, 2, 3) == PORT1_OK && port1_tap_init(&tap, &wires, 1, 2, 3) == PORT1_OK);
        for (size_t k = 0; k < GIVEN; k++)
            for (uint64_t left = given[k] >> 8; left > 0; count += arrived)
                WANT(port1_tap_push(&one, given[k] & 255, &left, wanted + count, PORT1_TAP_ROOM, &arrived) == PORT1_OK);
        arrived = 9;
        if (room < PORT1_TAP_ROOM) {
            WANT(port1_tap_feed_runs(&tap, runs, GIVEN, &at, got, room, &arrived) == PORT1_NO_ROOM);
            WANT(at == 0 && arrived == 9 && tap.samples == 0 && memcmp(runs, given, sizeof runs) == 0);
            continue;
        }
        for (; at < GIVEN; all += arrived) {
            WANT(port1_tap_feed_runs(&tap, runs, GIVEN, &at, got + all, room, &arrived) == PORT1_OK);
            WANT(at == GIVEN || arrived + PORT1_TAP_ROOM > room);
            WANT(at == GIVEN || ((runs[at] & 255) == (given[at] & 255) && runs[at] >> 8 > 0 && runs[at] <= given[at]));
            WANT(at == GIVEN || memcmp(runs + at + 1, given + at + 1, (GIVEN - at - 1) * sizeof *runs) == 0);
        }
        WANT(all == count && count > 4 && memcmp(got, wanted, all * sizeof *got) == 0 && memcmp(&tap, &one, sizeof one) == 0);
    }
}

/* Runs of more samples than there may be are not begun; those before them are taken. No tap takes any. */
static void tap_runs_refused(void) {
    const uint64_t most = ((uint64_t)1 << 56) - 1;
    uint64_t runs[20], at = 0, arrived = 9;
    for (size_t k = 0; k < 20; k++)
        runs[k] = run_of(most, 6);
    WANT(port1_tap_init(&tap, &wires, 1, 2, 0) == PORT1_OK);
    WANT(port1_tap_feed_runs(&tap, runs, 20, &at, arrivals, PORT1_TAP_ROOM, &arrived) == PORT1_PLACE_LIMIT);
    WANT(at == 16 && arrived == 0 && tap.samples == 16 * most && runs[16] == run_of(most, 6));
    runs[16] = run_of(17, 6);
    WANT(port1_tap_feed_runs(&tap, runs, 20, &at, arrivals, PORT1_TAP_ROOM, &arrived) == PORT1_PLACE_LIMIT && at == 16);
    runs[16] = run_of(16, 6), runs[17] = 6, runs[18] = run_of(1, 6);
    WANT(port1_tap_feed_runs(&tap, runs, 20, &at, arrivals, PORT1_TAP_ROOM, &arrived) == PORT1_PLACE_LIMIT && at == 18);
    WANT(tap.samples == LIMIT);
    at = 21;
    WANT(port1_tap_feed_runs(&tap, runs, 20, &at, arrivals, PORT1_TAP_ROOM, &arrived) == PORT1_OK && at == 21);
    tap.second_data.others = 2, at = 3, arrived = 9;
    WANT(port1_tap_feed_runs(&tap, runs, 20, &at, arrivals, PORT1_TAP_ROOM, &arrived) == PORT1_BAD_STATE);
    WANT(at == 3 && arrived == 9 && runs[3] == run_of(most, 6));
}

/* What no tap has, and what may not be asked for; nothing changes. */
static void tap_refusals(void) {
    static const struct {
        uint64_t count, at, room;
        uint32_t width, others, status;
    } rows[] = {{8, 0, 32, 1, 3, PORT1_OK},           {8, 8, 32, 1, 3, PORT1_OK},
                {8, 9, 32, 1, 3, PORT1_BAD_ARGUMENT}, {8, 0, 32, 0, 3, PORT1_BAD_ARGUMENT},
                {9, 1, 32, 8, 3, PORT1_OK},           {9, 2, 32, 8, 3, PORT1_BAD_ARGUMENT},
                {9, 0, 32, 9, 3, PORT1_BAD_ARGUMENT}, {8, 0, 31, 1, 4, PORT1_NO_ROOM},
                {8, 0, 0, 1, 3, PORT1_NO_ROOM},       {8, 0, 32, 1, 4, PORT1_BAD_STATE}};
    memset(octets, 0x55, sizeof octets);
    for (size_t k = 0; k < sizeof rows / sizeof *rows; k++) {
        struct port1_tap before;
        uint64_t at = rows[k].at, arrived = 9, count = 1;
        WANT(port1_tap_init(&tap, &wires, 3, 2, 0) == PORT1_OK);
        tap.second_data.others = rows[k].others;
        before = tap;
        WANT(port1_tap_feed(&tap, octets, rows[k].count, rows[k].width, &at, arrivals, rows[k].room, &arrived)
             == rows[k].status);
        if (rows[k].status == PORT1_OK)
            continue;
        WANT(memcmp(&tap, &before, sizeof tap) == 0 && at == rows[k].at && arrived == 9);
        if (rows[k].status == PORT1_BAD_ARGUMENT)
            continue;
        WANT(port1_tap_push(&tap, 0, &count, arrivals, rows[k].room, &arrived) == rows[k].status);
        WANT(memcmp(&tap, &before, sizeof tap) == 0 && count == 1 && arrived == 9);
    }
}

/* Whether the numbers are within the bounds of a tap: AreTapWords in crates/bus_tap/specs/Words.antt. */
static int is_within(const struct port1_line_facts *facts, uint64_t samples) {
    return facts->clock_changes.count <= samples && facts->data_changes.count <= samples
        && facts->data_changes_high.count <= samples && facts->bits.count <= samples && facts->bits.last <= samples
        && facts->jumps.count <= samples;
}

static int is_tap(void) {
    return tap.samples <= LIMIT && is_within(&tap.first, tap.samples) && is_within(&tap.second, tap.samples)
        && tap.first_clock.others <= tap.hold && tap.first_data.others <= tap.hold
        && tap.second_clock.others <= tap.hold && tap.second_data.others <= tap.hold;
}

/* Any octets, in three of four with numbers that a tap may have, but for one of them in one of these. */
static void fill_tap(void) {
    uint64_t way = draw() % 4;
    for (size_t k = 0; k < sizeof tap; k++)
        ((uint8_t *)&tap)[k] = (uint8_t)draw();
    if (way == 3)
        return;
    tap.samples = draw() % 3 ? LIMIT - draw() % 20 : LIMIT;
    for (size_t k = 0; k < 18; k++) {
        ((uint64_t *)&tap.first)[k] %= LIMIT - 30;
        ((uint64_t *)&tap.second)[k] %= LIMIT - 30;
    }
    for (size_t k = 0; k < 4; k++)
        (&tap.first_clock)[k].others %= tap.hold;
    if (way == 2)
        ((uint64_t *)&tap)[draw() % 43] = draw();
}

/* Just the states within the bounds are taken, and stay within them; else nothing changes. */
static void any_state(void) {
    unsigned long taken = 0, limited = 0, refused = 0;
    for (unsigned k = 0; k < 20000; k++) {
        uint64_t at = 0, arrived = 9;
        struct port1_tap before;
        fill_tap();
        before = tap;
        switch (port1_tap_feed(&tap, octets, sizeof octets, 1, &at, arrivals, PORT1_TAP_ROOM, &arrived)) {
        case PORT1_OK:
            taken++;
            WANT(is_tap() && tap.samples == before.samples + at && arrived <= 4 && (at == 9 || arrived > 2));
            for (uint64_t i = 0; i < arrived; i++)
                WANT((arrivals[i].line == 1 || arrivals[i].line == 2) && arrivals[i].bit <= 1);
            continue;
        case PORT1_PLACE_LIMIT:
            limited++;
            WANT(is_tap() && tap.samples > LIMIT - 9);
            break;
        case PORT1_BAD_STATE:
            refused++;
            WANT(!is_tap());
            break;
        default:
            WANT(0);
        }
        WANT(memcmp(&tap, &before, sizeof tap) == 0 && at == 0 && arrived == 9);
    }
    WANT(taken > 1000 && limited > 1000 && refused > 1000);
}

/* The second line comes to rest with the third bit of the first line after its own, and once up to its next 0. */
static void rest_of_a_line(void) {
    static const struct {
        struct port1_arrival arrival;
        uint32_t status;
        uint8_t rests;
    } rows[] = {{{1, 1}, PORT1_OK, 0}, {{1, 1}, PORT1_OK, 0}, {{1, 0}, PORT1_OK, 0}, {{2, 7}, PORT1_OK, 0},
                {{2, 0}, PORT1_OK, 0}, {{1, 1}, PORT1_OK, 0}, {{1, 1}, PORT1_OK, 0}, {{3, 1}, PORT1_BAD_ARGUMENT, 9},
                {{0, 1}, PORT1_BAD_ARGUMENT, 9}, {{1, 0}, PORT1_OK, 1}, {{1, 0}, PORT1_OK, 0}, {{2, 1}, PORT1_OK, 0},
                {{1, 0}, PORT1_OK, 0}, {{1, 0}, PORT1_OK, 0}, {{1, 0}, PORT1_OK, 0}, {{2, 0}, PORT1_OK, 0},
                {{1, 0}, PORT1_OK, 0}, {{1, 0}, PORT1_OK, 0}, {{1, 0}, PORT1_OK, 1}};
    struct port1_rest rest, before;
    memset(&rest, 0xa5, sizeof rest);
    WANT(port1_rest_init(&rest, 3) == PORT1_OK && rest.most == 3);
    for (size_t k = 0; k < sizeof rows / sizeof *rows; k++) {
        uint8_t rests = 9;
        before = rest;
        WANT(port1_rest_push(&rest, &rows[k].arrival, &rests) == rows[k].status && rests == rows[k].rests);
        WANT(rows[k].status == PORT1_OK || memcmp(&rest, &before, sizeof rest) == 0);
    }
    rest.ones = 16;
    before = rest;
    WANT(port1_rest_push(&rest, &rows[0].arrival, &octets[0]) == PORT1_BAD_STATE);
    WANT(memcmp(&rest, &before, sizeof rest) == 0);
}

/* The same by blocks, with the 1s that bring it to rest put in, whatever room there is; and what is refused. */
static void rest_of_a_block(void) {
    static const struct port1_arrival given[] = {{1, 1}, {2, 7}, {2, 0}, {1, 1}, {1, 1}, {1, 0}, {1, 0}, {2, 1},
                                                 {1, 0}, {1, 0}, {1, 0}, {2, 0}, {1, 0}, {1, 0}, {1, 1}, {3, 1}};
    enum { GIVEN = sizeof given / sizeof *given - 1 };
    static struct port1_arrival wanted[64], got[64];
    for (uint64_t room = 0; room < 40; room++) {
        struct port1_rest one, rest;
        uint64_t count = 0, all = 0, at = 0, put = 9;
        port1_rest_init(&one, 3);
        port1_rest_init(&rest, 3);
        for (size_t k = 0; k < GIVEN; k++) {
            uint8_t rests = 0;
            WANT(port1_rest_push(&one, &given[k], &rests) == PORT1_OK);
            wanted[count].line = given[k].line;
            wanted[count++].bit = given[k].bit != 0;
            for (unsigned i = 0; rests == 1 && i < 15; i++)
                wanted[count].line = 2, wanted[count++].bit = 1;
        }
        if (room < PORT1_REST_ROOM) {
            WANT(port1_rest_feed(&rest, given, GIVEN, &at, got, room, &put) == PORT1_NO_ROOM && at == 0 && put == 9);
            continue;
        }
        for (; at < GIVEN; all += put) {
            WANT(port1_rest_feed(&rest, given, GIVEN, &at, got + all, room, &put) == PORT1_OK);
            WANT(at == GIVEN || put + PORT1_REST_ROOM > room);
        }
        WANT(all == count && memcmp(got, wanted, all * sizeof *got) == 0 && memcmp(&rest, &one, sizeof rest) == 0);
        WANT(port1_rest_feed(&rest, given, GIVEN + 1, &at, got, room, &put) == PORT1_BAD_ARGUMENT && at == GIVEN);
        rest.ones = 16, at = 0;
        WANT(port1_rest_feed(&rest, given, GIVEN, &at, got, room, &put) == PORT1_BAD_STATE && at == 0 && put == 0);
    }
}

/* Call and answer, each between two flags, and the octets of the answer. */
static const char call[] = "01111110" "00001000110000010000000010111110110100111" "01111110";
static const char answer[] = "01111110" "00001000110000010000000110101111100000110" "01111110";
static const uint8_t answered[] = {0x10, 0x83, 0x80, 0xf5, 0x61};
static struct port1_clocks clocks;
static struct port1_report frames[2];

/* A bit arrives. A frame that it ends is kept. */
static void arrive(uint8_t line, int bit) {
    struct port1_arrival arrival;
    struct port1_report report = {7, 8, 9, 10};
    arrival.line = line;
    arrival.bit = (uint8_t)bit;
    WANT(port1_clocks_push(&clocks, &arrival, &report) == PORT1_OK && report.kind <= PORT1_IDLE);
    if (report.kind == PORT1_FRAME)
        frames[line - 1] = report;
}

/* Bits of the first line arrive, which sends the call and then ones. */
static void arrive_first(unsigned count) {
    for (; count > 0; count--) {
        uint64_t k = clocks.first.place - clocks.first.origin;
        arrive(1, k >= sizeof call - 1 || call[k] == '1');
    }
}

/* A bit of the second line stands at the place of the last bit of the first line before it. */
static void clocks_places(void) {
    static const struct {
        uint64_t origin;
        unsigned before, between; /* bits of the first line before the answer, and before each further bit of it */
        uint64_t first, past;
    } rows[] = {{0, 60, 1, 68, 109}, {1000, 60, 1, 1068, 1109}, {0, 66, 0, 65, 66}, {9, 57, 3, 92, 213}};
    for (size_t k = 0; k < sizeof rows / sizeof *rows; k++) {
        memset(&clocks, 0xa5, sizeof clocks);
        WANT(port1_clocks_init(&clocks, 256, rows[k].origin) == PORT1_OK);
        arrive_first(rows[k].before);
        for (size_t i = 0; i < sizeof answer - 1; i++) {
            arrive_first(rows[k].between);
            arrive(2, answer[i] == '1');
        }
        WANT(frames[0].first == rows[k].origin + 8 && frames[0].past == rows[k].origin + 49);
        WANT(frames[1].first == rows[k].first && frames[1].past == rows[k].past);
        WANT(clocks.second.count == 5 && memcmp(clocks.second.octets, answered, 5) == 0);
    }
}

/* By blocks, the same reports come as bit by bit, each at the bit that decides it; and what is refused. */
static void clocks_by_blocks(void) {
    static struct port1_arrival given[2 * sizeof call];
    enum { GIVEN = sizeof given / sizeof *given - 2 };
    static struct port1_clocks one;
    struct port1_report report = {7, 8, 9, 10}, wanted;
    uint64_t at = 0;
    for (size_t k = 0; k < GIVEN; k++) {
        given[k].line = (uint8_t)(1 + k % 2);
        given[k].bit = (k % 2 == 0 ? call : answer)[k / 2] == '1';
    }
    WANT(port1_clocks_init(&one, 256, 7) == PORT1_OK && port1_clocks_init(&clocks, 256, 7) == PORT1_OK);
    for (size_t k = 0; k < GIVEN; k++) {
        WANT(port1_clocks_push(&one, &given[k], &wanted) == PORT1_OK);
        if (wanted.kind == PORT1_NONE && k + 1 < GIVEN)
            continue;
        WANT(port1_clocks_feed(&clocks, given, GIVEN, &at, &report) == PORT1_OK && at == k + 1);
        WANT(memcmp(&report, &wanted, sizeof report) == 0 && memcmp(&clocks, &one, sizeof one) == 0);
    }
    WANT(port1_clocks_feed(&clocks, given, GIVEN, &at, &report) == PORT1_OK && at == GIVEN && report.kind == PORT1_NONE);
    WANT(port1_clocks_feed(&clocks, given, GIVEN + 1, &at, &report) == PORT1_BAD_ARGUMENT && at == GIVEN);
    memset(&clocks.second, 0, sizeof clocks.second), at = 0;
    WANT(port1_clocks_feed(&clocks, given, GIVEN, &at, &report) == PORT1_BAD_STATE && at == 0);
    WANT(port1_clocks_feed(&clocks, given, 0, &at, &report) == PORT1_BAD_STATE && at == 0);
    WANT(port1_clocks_init(&clocks, 256, LIMIT - 1) == PORT1_OK);
    WANT(port1_clocks_feed(&clocks, given, GIVEN, &at, &report) == PORT1_PLACE_LIMIT && at == 2 && report.kind == 0);
}

/* Before the first line's first bit the second's stand at the origin; open pieces are told in places. */
static void clocks_open(void) {
    uint64_t first = 5, past = 6;
    uint8_t has_begun = 9;
    WANT(port1_clocks_init(&clocks, 256, 40) == PORT1_OK);
    WANT(port1_clocks_open(&clocks, 2, &has_begun, &first, &past) == PORT1_OK);
    WANT(has_begun == 0 && first == 5 && past == 6);
    for (size_t i = 0; i < 10; i++)
        arrive(2, answer[i] == '1');
    WANT(port1_clocks_open(&clocks, 2, &has_begun, &first, &past) == PORT1_OK);
    WANT(has_begun == 1 && first == 40 && past == 41);
    arrive_first(20);
    arrive(2, 0);
    WANT(port1_clocks_open(&clocks, 2, &has_begun, &first, &past) == PORT1_OK && first == 40 && past == 60);
    WANT(port1_clocks_open(&clocks, 1, &has_begun, &first, &past) == PORT1_OK && first == 48 && past == 60);
}

/* What the calls refuse, and that nothing changes then; places of any content do no harm. */
static void clocks_refusals(void) {
    static const struct {
        struct port1_arrival arrival;
        uint32_t status, zeros;
    } rows[] = {{{0, 1}, PORT1_BAD_ARGUMENT, 0}, {{3, 1}, PORT1_BAD_ARGUMENT, 0}, {{1, 1}, PORT1_PLACE_LIMIT, 0},
                {{1, 1}, PORT1_BAD_STATE, 1},    {{2, 1}, PORT1_BAD_STATE, 1},    {{1, 1}, PORT1_BAD_STATE, 2},
                {{2, 1}, PORT1_BAD_STATE, 2}};
    for (size_t k = 0; k < sizeof rows / sizeof *rows; k++) {
        struct port1_report report = {7, 8, 9, 10}, untold = report;
        struct port1_clocks before;
        uint64_t first = 5, past = 6;
        uint8_t has_begun = 9;
        WANT(port1_clocks_init(&clocks, 256, LIMIT) == PORT1_OK);
        if (rows[k].zeros)
            memset(rows[k].zeros == 1 ? &clocks.first : &clocks.second, 0, sizeof clocks.first);
        before = clocks;
        WANT(port1_clocks_push(&clocks, &rows[k].arrival, &report) == rows[k].status);
        WANT(memcmp(&clocks, &before, sizeof clocks) == 0 && memcmp(&report, &untold, sizeof report) == 0);
        if (rows[k].status == PORT1_PLACE_LIMIT)
            continue;
        WANT(port1_clocks_open(&clocks, rows[k].arrival.line, &has_begun, &first, &past) == rows[k].status);
        WANT(has_begun == 9 && first == 5 && past == 6);
    }
    WANT(port1_clocks_init(&clocks, 2, 0) == PORT1_BAD_LENGTH);
    WANT(port1_clocks_init(&clocks, 3, LIMIT + 1) == PORT1_PLACE_LIMIT && clocks.first.longest == 256);
    WANT(port1_clocks_init(&clocks, 256, 0) == PORT1_OK);
    memset(&clocks.reached, 0xff, sizeof clocks - offsetof(struct port1_clocks, reached));
    for (size_t i = 0; i < sizeof answer - 1; i++)
        arrive(2, answer[i] == '1');
    WANT(frames[1].first == UINT64_MAX && frames[1].past == UINT64_MAX);
}

int main(void) {
    tap_bits();
    tap_facts();
    tap_blocks();
    tap_runs();
    tap_blocks_of_runs();
    tap_runs_refused();
    tap_refusals();
    any_state();
    rest_of_a_line();
    rest_of_a_block();
    clocks_places();
    clocks_by_blocks();
    clocks_open();
    clocks_refusals();
    return wrong;
}
