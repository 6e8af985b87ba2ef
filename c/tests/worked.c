/* Calls of the C library on worked bits, and what each is to do by the rules of the line and c/include/port1.h: a line
 * with a report of each kind in cuts of any size, memory with one number that no decoder has, null pointers, bits that
 * are sent, and what becomes of a command. Each that does otherwise is a line on standard output. It is compiled as C99,
 * C11 and C++; an argument is the name of the one test to run. */
#include "want.h"

#define TWO_32 ((uint64_t)1 << 32)

static struct port1_line line;

/* A report that no call gives, to see whether one writes it. */
static const struct port1_report untold = {7, 8, 9, 10};

static int is_untold(const struct port1_report *report) {
    return memcmp(report, &untold, sizeof untold) == 0;
}

/* The bits of a text of 0 and 1 from bit `at` on, the lowest bit of each octet first, and where they end. */
static uint64_t put_bits(uint8_t *octets, uint64_t at, const char *text) {
    for (; *text; text++) {
        if (*text != '0' && *text != '1')
            continue;
        octets[at / 8] = (uint8_t)(octets[at / 8] & ~(1 << at % 8));
        octets[at / 8] = (uint8_t)(octets[at / 8] | (*text == '1') << at % 8);
        at++;
    }
    return at;
}

static int bit_at(const uint8_t *octets, uint64_t at) {
    return octets[at / 8] >> at % 8 & 1;
}

/* A line's memory with this number everywhere, which is no decoder. */
static struct port1_line memory_of(uint8_t number) {
    struct port1_line made;
    memset(&made, number, sizeof made);
    made.longest = made.origin = made.place = made.settles_at = made.folded = number;
    made.stored = made.assembled = made.data_bits = made.partial = made.last_bits = number;
    made.count = made.spare = made.check = number;
    return made;
}

static int are_same(const struct port1_line *one, const struct port1_line *other) {
    return memcmp(one, other, sizeof *one) == 0;
}

/* ---- a line with a report of each kind, taken bit by bit, in cuts of any size and octet by octet */

#define FLAG "01111110"
#define CALL "00001000 11000001 00000000 101111101 10100111"

/* What stands between flags: a frame, 24 bits of data, 32 bits and a wrong check, 33 bits, five ones before the flag,
 * an octet more than the longest frame of three octets and its check; and then an abort that runs on into an idle. */
static const char traffic[] = FLAG CALL FLAG "00000000 00000000 00000000" FLAG "00000000 00000000 00000000 00000000"
    FLAG "00000000 00000000 00000000 00000000 0" FLAG "00011111" FLAG
    "00000000 00000000 00000000 00000000 00000000 00000000" FLAG "00001000" "1111111 11111111";

#define BITS 265
#define OCTETS 34

/* What they decide, where the first bit has the place 1000: a report, and the place of the next bit to take. */
static const struct {
    struct port1_report report;
    uint64_t place;
} told[] = {{{PORT1_FRAME, 0, 1008, 1049}, 1057},
            {{PORT1_DAMAGED, PORT1_SHORT, 1057, 1081}, 1089},
            {{PORT1_DAMAGED, PORT1_FCS, 1089, 1121}, 1129},
            {{PORT1_DAMAGED, PORT1_UNALIGNED, 1129, 1162}, 1170},
            {{PORT1_DAMAGED, PORT1_UNSTUFFED, 1170, 1178}, 1186},
            {{PORT1_OVERLONG, 0, 1186, 1234}, 1242},
            {{PORT1_ABORT, 0, 1242, 1250}, 1257},
            {{PORT1_IDLE, 0, 1250, 1265}, 1265}};

#define TOLD (sizeof told / sizeof *told)

/* How many of them were told. */
static size_t reports;

/* A decoder of frames up to three octets. */
static void begin(void) {
    line = memory_of(0xa5);
    WANT(port1_line_init(&line, 3, 1000) == PORT1_OK);
    reports = 0;
}

/* Compares what a call told with the next of them. A frame's octets stand in the line. */
static void note(const struct port1_report *report) {
    if (report->kind == PORT1_NONE)
        return;
    WANT(reports < TOLD);
    if (reports >= TOLD)
        return;
    WANT(memcmp(report, &told[reports].report, sizeof *report) == 0 && line.place == told[reports].place);
    if (report->kind == PORT1_FRAME)
        WANT(line.count == 5 && memcmp(line.octets, "\x10\x83\x00\xfd\xe5", 5) == 0);
    reports++;
}

/* Any other number than 0 is a 1. */
static void pushed_bits(void) {
    uint8_t octets[OCTETS] = {0};
    WANT(put_bits(octets, 0, traffic) == BITS);
    begin();
    for (uint64_t at = 0; at < BITS; at++) {
        struct port1_report report = untold;
        WANT(port1_line_push(&line, (uint8_t)(bit_at(octets, at) ? 4 : 0), &report) == PORT1_OK);
        note(&report);
    }
    WANT(reports == TOLD);
}

/* A frame, pushed bit by bit, and the piece that is open before it ends. */
static void open_pieces(void) {
    uint8_t octets[8] = {0}, has_begun = 0;
    uint64_t first = 0, bits = put_bits(octets, 0, FLAG CALL FLAG);
    struct port1_report report = untold;
    WANT(port1_line_init(&line, 256, 1000) == PORT1_OK);
    for (uint64_t k = 0; k < bits; k++) {
        WANT(port1_line_push(&line, (uint8_t)bit_at(octets, k), &report) == PORT1_OK);
        WANT((report.kind == PORT1_FRAME) == (k + 1 == bits));
        WANT(port1_line_open(&line, &has_begun, &first) == PORT1_OK);
        WANT(has_begun == (k > 7 && k + 1 < bits ? 1 : 0) && (!has_begun || first == 1008));
    }
}

/* The traffic begins at each bit of an octet, and a call gets at most so many bits. */
static void fed_in_cuts(void) {
    static const uint64_t sizes[] = {1, 5, 8, 9, 24, 48, 55, 64, 65, 1000}, bits = 8 * OCTETS;
    for (uint64_t shift = 0; shift < 8; shift++) {
        uint8_t octets[OCTETS] = {0};
        put_bits(octets, shift, traffic);
        for (size_t k = 0; k < sizeof sizes / sizeof *sizes; k++) {
            uint64_t at = shift, left = bits;
            begin();
            for (; at < bits && left > 0; left--) {
                struct port1_report report = untold;
                uint64_t end = at + sizes[k] < bits ? at + sizes[k] : bits;
                WANT(port1_line_feed(&line, octets, OCTETS, &at, end, &report) == PORT1_OK);
                WANT(report.kind != PORT1_NONE || at == end);
                note(&report);
            }
            WANT(at == bits && reports == TOLD);
        }
    }
}

/* The octet whose highest bit is the lowest of this one. */
static uint8_t turned(uint8_t octet) {
    uint8_t other = 0;
    for (int bit = 0; bit < 8; bit++)
        other = (uint8_t)(other << 1 | (octet >> bit & 1));
    return other;
}

/* Feeds the bits of an octet from one on, its lowest or its highest first. */
static void feed_octet(uint8_t octet, int is_lowest_first, uint64_t at) {
    for (int call = 0; call < 8; call++) {
        struct port1_report report = untold;
        WANT((is_lowest_first ? port1_line_feed(&line, &octet, 1, &at, 8, &report)
                              : port1_line_feed_high_first(&line, turned(octet), &at, &report))
             == PORT1_OK);
        WANT(report.kind != PORT1_NONE || at == 8);
        note(&report);
        if (at == 8)
            break;
    }
    WANT(at == 8);
}

static void fed_by_octets(void) {
    for (uint64_t shift = 0; shift < 8; shift++) {
        uint8_t octets[OCTETS] = {0};
        put_bits(octets, shift, traffic);
        for (int is_lowest_first = 0; is_lowest_first < 2; is_lowest_first++) {
            begin();
            for (size_t k = 0; k < OCTETS; k++)
                feed_octet(octets[k], is_lowest_first, k == 0 ? shift : 0);
            WANT(reports == TOLD);
        }
    }
}

/* ---- what the calls that take bits refuse, and that nothing changes then */

/* A decoder is the same whatever stood there, and what is refused changes nothing. */
static void decoders_are_made(void) {
    static const struct {
        uint64_t longest, origin;
        uint32_t status;
    } rows[] = {{3, 0, PORT1_OK},
                {256, LIMIT, PORT1_OK},
                {2, 0, PORT1_BAD_LENGTH},
                {257, 0, PORT1_BAD_LENGTH},
                {0, LIMIT + 1, PORT1_BAD_LENGTH},
                {0x100000003, 0, PORT1_BAD_LENGTH},
                {UINT64_MAX, 0, PORT1_BAD_LENGTH},
                {256, LIMIT + 1, PORT1_PLACE_LIMIT},
                {256, UINT64_MAX, PORT1_PLACE_LIMIT}};
    for (size_t k = 0; k < sizeof rows / sizeof *rows; k++) {
        struct port1_line other = memory_of(0), zeros = other, before = memory_of(0xa5);
        line = before;
        WANT(port1_line_init(&line, rows[k].longest, rows[k].origin) == rows[k].status);
        WANT(port1_line_init(&other, rows[k].longest, rows[k].origin) == rows[k].status);
        if (rows[k].status != PORT1_OK) {
            WANT(are_same(&line, &before) && are_same(&other, &zeros));
            continue;
        }
        WANT(line.longest == rows[k].longest && line.origin == rows[k].origin && line.place == rows[k].origin);
        WANT(are_same(&line, &other));
    }
}

/* Asks each call that takes bits, from bit `from` of an octet on. */
static void ask_all(uint64_t from, struct port1_report *report) {
    static const uint8_t flags[] = {0x7e, 0x7e};
    uint64_t at = from;
    WANT(port1_line_feed(&line, flags, 1, &at, 8, report) == PORT1_BAD_STATE);
    WANT(port1_line_feed(&line, flags, 2, &at, 16, report) == PORT1_BAD_STATE);
    WANT(port1_line_feed_high_first(&line, 0x7e, &at, report) == PORT1_BAD_STATE);
    WANT(port1_line_push(&line, 1, report) == PORT1_BAD_STATE);
    WANT(at == from);
}

/* Every call refuses this memory, and changes nothing: not the memory either. */
static void want_refused(void) {
    struct port1_line before = line;
    struct port1_report report = untold;
    uint8_t has_begun = 9;
    uint64_t first = 5;
    ask_all(0, &report);
    ask_all(3, &report);
    WANT(port1_line_open(&line, &has_begun, &first) == PORT1_BAD_STATE && has_begun == 9 && first == 5);
    WANT(is_untold(&report) && are_same(&line, &before));
}

/* Memory that holds no decoder is refused by every call. */
static void no_decoder(void) {
    line = memory_of(0);
    want_refused();
    line = memory_of(0xa5);
    want_refused();
}

/* A decoder of frames up to 256 octets from place 1000 on, after a flag and a hundred 0s. The piece begins at place
 * 1008, and 92 bits of it are settled, of which 64 are a word that is stored. What folds it is counted at its end. */
static void within_piece(void) {
    static const uint8_t octets[14] = {0x7e};
    struct port1_report report = untold;
    uint64_t at = 0;
    line = memory_of(0);
    WANT(port1_line_init(&line, 256, 1000) == PORT1_OK);
    WANT(port1_line_feed(&line, octets, sizeof octets, &at, 108, &report) == PORT1_OK);
    WANT(at == 108 && report.kind == PORT1_NONE);
}

/* One number that no decoder has beside the others is refused by every call, and changes nothing. */
static void one_number_wrong(void) {
    uint64_t *const numbers[] = {&line.longest, &line.origin, &line.place,     &line.settles_at,
                                 &line.folded,  &line.stored, &line.assembled, &line.data_bits, &line.last_bits};
    static const struct {
        size_t at; /* in these numbers; 9 is the count of the octets */
        uint64_t number;
        uint32_t status;
    } rows[] = {{0, 6, PORT1_OK},           {0, 5, PORT1_BAD_STATE},         {0, 257, PORT1_BAD_STATE},
                {1, 1016, PORT1_OK},        {1, 1017, PORT1_BAD_STATE},      {2, LIMIT, PORT1_OK},
                {2, LIMIT + 1, PORT1_BAD_STATE}, {3, 1116, PORT1_OK},        {3, 1117, PORT1_BAD_STATE},
                {3, 7, PORT1_BAD_STATE},    {4, 0, PORT1_OK},                {4, 1, PORT1_BAD_STATE},
                {5, 0, PORT1_OK},           {5, 1, PORT1_BAD_STATE},         {6, 16, PORT1_OK},
                {6, 17, PORT1_BAD_STATE},   {7, 108, PORT1_OK},              {7, 109, PORT1_BAD_STATE},
                {8, 65535, PORT1_OK},       {8, 65536, PORT1_BAD_STATE},
                {9, 258, PORT1_OK},         {9, 259, PORT1_BAD_STATE}};
    for (size_t k = 0; k < sizeof rows / sizeof *rows; k++) {
        uint8_t has_begun = 9;
        uint64_t first = 5;
        within_piece();
        if (rows[k].at < 9)
            *numbers[rows[k].at] = rows[k].number;
        else
            line.count = (uint32_t)rows[k].number;
        if (rows[k].status == PORT1_BAD_STATE)
            want_refused();
        else
            WANT(port1_line_open(&line, &has_begun, &first) == PORT1_OK);
    }
}

/* A decoder that took no bit. */
static struct port1_line decoder(uint64_t origin) {
    struct port1_line made = memory_of(0);
    WANT(port1_line_init(&made, 256, origin) == PORT1_OK);
    return made;
}

/* Asks a new decoder for bits of octets without a mark: all are taken, or none. */
static void bits_of_octets(void) {
    static const uint8_t octets[] = {0x55, 0x55, 0x55, 0x55};
    static const struct port1_report none = {PORT1_NONE, 0, 0, 0};
    static const struct {
        uint64_t count, from, end;
        uint32_t status;
    } rows[] = {{4, 0, 32, PORT1_OK},          {4, 31, 32, PORT1_OK},          {4, 32, 32, PORT1_OK},
                {0, 0, 0, PORT1_OK},           {0, 0, 1, PORT1_BAD_ARGUMENT},  {1, 0, 8, PORT1_OK},
                {1, 0, 9, PORT1_BAD_ARGUMENT}, {1, 9, 8, PORT1_BAD_ARGUMENT},  {4, 1, 0, PORT1_BAD_ARGUMENT},
                {4, 33, 32, PORT1_BAD_ARGUMENT}, {4, 0, 33, PORT1_BAD_ARGUMENT}, {4, 33, 33, PORT1_BAD_ARGUMENT},
                {4, 0, UINT64_MAX, PORT1_BAD_ARGUMENT}, {4, UINT64_MAX, 32, PORT1_BAD_ARGUMENT},
                {4, 0, 39, PORT1_BAD_ARGUMENT}, {4, 0, 40, PORT1_BAD_ARGUMENT}, {4, 0, TWO_32, PORT1_BAD_ARGUMENT},
                {4, TWO_32, 32, PORT1_BAD_ARGUMENT}, {4, 0, TWO_32 + 32, PORT1_BAD_ARGUMENT},
                {4, TWO_32, TWO_32, PORT1_BAD_ARGUMENT}};
    for (size_t k = 0; k < sizeof rows / sizeof *rows; k++) {
        struct port1_line made = decoder(0);
        struct port1_report report = untold;
        uint64_t at = rows[k].from;
        line = made;
        WANT(port1_line_feed(&line, octets, rows[k].count, &at, rows[k].end, &report) == rows[k].status);
        if (rows[k].status == PORT1_OK) {
            WANT(at == rows[k].end && line.place == rows[k].end - rows[k].from);
            WANT(memcmp(&report, &none, sizeof none) == 0);
        } else
            WANT(at == rows[k].from && is_untold(&report) && are_same(&line, &made));
    }
}

/* And for the bits of an octet from one on, the highest first. None is left, so that it stays new. */
static void bits_asked_for(void) {
    static const struct {
        uint64_t from;
        uint32_t status, kind;
    } rows[] = {{8, PORT1_OK, PORT1_NONE}, {9, PORT1_BAD_ARGUMENT, 7}, {UINT64_MAX, PORT1_BAD_ARGUMENT, 7}};
    struct port1_line made = decoder(0);
    bits_of_octets();
    line = made;
    for (size_t k = 0; k < sizeof rows / sizeof *rows; k++) {
        struct port1_report report = untold;
        uint64_t at = rows[k].from;
        WANT(port1_line_feed_high_first(&line, 0xff, &at, &report) == rows[k].status);
        WANT(at == rows[k].from && report.kind == rows[k].kind && are_same(&line, &made));
    }
}

/* The bits before place 2^60 are taken and decide an idle or nothing, and no other bit is. */
static void last_places(void) {
    static const uint8_t ones[] = {0xff, 0xff, 0xff, 0xff};
    static const struct {
        uint64_t room;
        uint32_t kind, status;
    } rows[] = {{5, PORT1_NONE, PORT1_PLACE_LIMIT}, {8, PORT1_NONE, PORT1_PLACE_LIMIT}, {15, PORT1_IDLE, PORT1_OK}};
    for (size_t k = 0; k < sizeof rows / sizeof *rows; k++) {
        struct port1_report report = untold;
        uint64_t at = 0;
        line = decoder(LIMIT - rows[k].room);
        WANT(port1_line_feed(&line, ones, 4, &at, 32, &report) == rows[k].status && report.kind == rows[k].kind);
        WANT(at == rows[k].room && line.place == LIMIT);
        report = untold;
        at = 0;
        WANT(port1_line_push(&line, 1, &report) == PORT1_PLACE_LIMIT && is_untold(&report));
        WANT(port1_line_feed(&line, ones, 1, &at, 8, &report) == PORT1_PLACE_LIMIT && report.kind == PORT1_NONE);
        WANT(at == 0 && line.place == LIMIT);
        at = 6;
        line = decoder(LIMIT - 1);
        WANT(port1_line_feed_high_first(&line, 0xff, &at, &report) == PORT1_PLACE_LIMIT && at == 7);
        WANT(line.place == LIMIT);
    }
}

/* ---- bits that are sent, and what the calls that send refuse */

/* What is asked for. */
enum ask { ASK_FLAG, ASK_IDLE, ASK_ALIGN, ASK_FRAME, ASK_SHORT_FRAME, ASK_LONG_FRAME, ASK_HUGE_FRAME };

static uint32_t send(struct port1_sender *sender, enum ask what, uint8_t *octets, uint64_t count, uint64_t *at,
                     uint64_t *bits) {
    static const uint8_t frame[] = {0x10, 0x83, 0x00}, zeros[257] = {0};
    switch (what) {
    case ASK_FLAG:
        return port1_send_flag(sender, octets, count, at, bits);
    case ASK_IDLE:
        return port1_send_idle(sender, octets, count, at, bits);
    case ASK_ALIGN:
        return port1_send_align(sender, octets, count, at, bits);
    case ASK_FRAME:
        return port1_send_frame(sender, frame, 3, octets, count, at, bits);
    case ASK_SHORT_FRAME:
        return port1_send_frame(sender, frame, 1, octets, count, at, bits);
    default:
        return port1_send_frame(sender, zeros, what == ASK_LONG_FRAME ? 257 : TWO_32 + 3, octets, count, at, bits);
    }
}

/* Where the first bit stands, and how many octets the last ends. */
#define FROM 3
#define LENGTH 25

/* Bits are put where 0s or 1s stood, and all others stay: the last octet is no room. A frame has a flag before it only
 * where none was sent last, and fifteen ones for each bit of the last octet end it. */
static void sent_bits(void) {
    static const struct {
        enum ask what;
        uint64_t count;
        uint32_t behind_flag;
    } rows[] = {{ASK_FLAG, 8, 1},   {ASK_FRAME, 49, 1}, {ASK_IDLE, 15, 0}, {ASK_FRAME, 57, 1},
                {ASK_ALIGN, 60, 0}, {ASK_FLAG, 8, 1},   {ASK_ALIGN, 0, 1}};
    static const char ones[] = "111111111111111 111111111111111 111111111111111 111111111111111";
    for (int bit = 0; bit < 2; bit++) {
        uint8_t octets[LENGTH + 1], wanted[LENGTH + 1];
        struct port1_sender sender = {9};
        uint64_t at = FROM, past = FROM;
        memset(octets, bit ? 0xff : 0, sizeof octets);
        memset(wanted, bit ? 0xff : 0, sizeof wanted);
        WANT(port1_sender_init(&sender) == PORT1_OK);
        for (size_t k = 0; k < sizeof rows / sizeof *rows; k++) {
            uint64_t bits = 999;
            WANT(send(&sender, rows[k].what, octets, LENGTH, &at, &bits) == PORT1_OK);
            past += rows[k].count;
            WANT(sender.behind_flag == rows[k].behind_flag && bits == rows[k].count && at == past);
        }
        WANT(at == 8 * LENGTH);
        past = put_bits(wanted, put_bits(wanted, FROM, FLAG CALL FLAG "111111111111111" FLAG CALL FLAG), ones);
        WANT(put_bits(wanted, past, FLAG) == 8 * LENGTH);
        WANT(memcmp(octets, wanted, sizeof octets) == 0);
    }
}

/* After a flag or not, or of no sender; how many octets there are and at which bit it is to begin; what comes of it and
 * how many bits are told. A refusal changes nothing, but that want of room tells the bits. */
static void refused_sends(void) {
    static const struct {
        enum ask what;
        uint32_t behind_flag;
        uint64_t count, from;
        uint32_t status;
        uint64_t told;
    } rows[] = {{ASK_ALIGN, 1, 1, 8, PORT1_OK, 0},
                {ASK_FLAG, 0, 1, 0, PORT1_OK, 8},
                {ASK_FLAG, 0, 1, 1, PORT1_NO_ROOM, 8},
                {ASK_FLAG, 0, 1, 9, PORT1_BAD_ARGUMENT, 999},
                {ASK_FLAG, 2, 1, 0, PORT1_BAD_STATE, 999},
                {ASK_IDLE, 1, 3, 9, PORT1_OK, 15},
                {ASK_IDLE, 1, 3, 10, PORT1_NO_ROOM, 15},
                {ASK_IDLE, 1, 3, 25, PORT1_BAD_ARGUMENT, 999},
                {ASK_IDLE, 2, 3, 0, PORT1_BAD_STATE, 999},
                {ASK_ALIGN, 1, 2, 1, PORT1_OK, 15},
                {ASK_ALIGN, 1, 1, 1, PORT1_NO_ROOM, 15},
                {ASK_ALIGN, 1, 0, 1, PORT1_BAD_ARGUMENT, 999},
                {ASK_ALIGN, 2, 2, 1, PORT1_BAD_STATE, 999},
                {ASK_FRAME, 0, 8, 7, PORT1_OK, 57},
                {ASK_FRAME, 0, 8, 8, PORT1_NO_ROOM, 57},
                {ASK_FRAME, 1, 8, 15, PORT1_OK, 49},
                {ASK_FRAME, 1, 8, 16, PORT1_NO_ROOM, 49},
                {ASK_FRAME, 2, 8, 65, PORT1_BAD_ARGUMENT, 999},
                {ASK_FRAME, 0xffffffff, 8, 0, PORT1_BAD_STATE, 999},
                {ASK_SHORT_FRAME, 0, 8, 0, PORT1_BAD_LENGTH, 999},
                {ASK_LONG_FRAME, 0, 8, 0, PORT1_BAD_LENGTH, 999},
                {ASK_HUGE_FRAME, 0, 8, 0, PORT1_BAD_LENGTH, 999},
                {ASK_SHORT_FRAME, 2, 8, 0, PORT1_BAD_STATE, 999},
                {ASK_FRAME, 0, 7, 0, PORT1_NO_ROOM, 57},
                {ASK_FRAME, 0, 7, 57, PORT1_BAD_ARGUMENT, 999},
                {ASK_FRAME, 0, 8, UINT64_MAX, PORT1_BAD_ARGUMENT, 999},
                {ASK_FRAME, 0, 8, TWO_32, PORT1_BAD_ARGUMENT, 999}};
    for (size_t k = 0; k < sizeof rows / sizeof *rows; k++) {
        uint8_t octets[8], before[8];
        struct port1_sender sender = {rows[k].behind_flag};
        uint64_t at = rows[k].from, bits = 999;
        memset(octets, 0x96, sizeof octets);
        memcpy(before, octets, sizeof octets);
        WANT(send(&sender, rows[k].what, octets, rows[k].count, &at, &bits) == rows[k].status);
        WANT(bits == rows[k].told);
        if (rows[k].status == PORT1_OK)
            WANT(at == rows[k].from + bits);
        else
            WANT(at == rows[k].from && sender.behind_flag == rows[k].behind_flag
                 && memcmp(octets, before, sizeof octets) == 0);
    }
}

/* The longest frame has room in so many bits. */
static void longest_sent(void) {
    uint8_t frame[256], octets[(PORT1_FRAME_BITS + 7) / 8];
    struct port1_sender sender = {9};
    uint64_t at = 0, bits = 0;
    memset(frame, 0xff, sizeof frame);
    WANT(port1_sender_init(&sender) == PORT1_OK);
    WANT(port1_send_frame(&sender, frame, 256, octets, sizeof octets, &at, &bits) == PORT1_OK);
    WANT(at == bits && bits <= PORT1_FRAME_BITS && bits > PORT1_FRAME_BITS - 8);
}

/* A transmission ends with a whole octet, and no other bit changes. */
static void send_align(void) {
    uint8_t octets[32];
    struct port1_sender sender;
    for (uint64_t from = 0; from < 24; from++) {
        uint64_t at = from, bits = 999;
        memset(octets, 0, sizeof octets);
        sender.behind_flag = 1;
        WANT(port1_send_align(&sender, octets, 16, &at, &bits) == PORT1_OK);
        WANT(bits == 15 * (from % 8) && at == from + bits && at % 8 == 0);
        WANT(sender.behind_flag == (from % 8 ? 0 : 1));
        for (uint64_t k = 0; k < 8 * sizeof octets; k++)
            WANT((octets[k / 8] >> k % 8 & 1) == (k >= from && k < at));
        sender.behind_flag = 1;
        at = from;
        WANT(port1_send_align(&sender, octets, (from + bits) / 8 - (bits ? 1 : 0), &at, &bits)
             == (from % 8 ? PORT1_NO_ROOM : PORT1_OK));
        WANT(bits == 15 * (from % 8) && at == from && sender.behind_flag == 1);
    }
    sender.behind_flag = 2;
    {
        uint64_t at = 1, bits = 999;
        WANT(port1_send_align(&sender, octets, 16, &at, &bits) == PORT1_BAD_STATE && at == 1 && bits == 999);
        at = 129;
        WANT(port1_send_align(&sender, octets, 16, &at, &bits) == PORT1_BAD_ARGUMENT && at == 129 && bits == 999);
    }
}

/* Where there are no octets, the pointer may be null. */
static void null_octets(void) {
    static const uint8_t frame[] = {0x10, 0x83};
    uint64_t at = 0, bits = 77;
    uint8_t *const none = NULL, octets[8];
    struct port1_sender sender = {9};
    struct port1_report report = untold;
    WANT(port1_line_init(&line, 256, 0) == PORT1_OK);
    WANT(port1_line_feed(&line, none, 0, &at, 0, &report) == PORT1_OK);
    WANT(at == 0 && report.kind == PORT1_NONE && report.cause == 0 && line.place == 0);
    WANT(port1_line_feed(&line, none, 0, &at, 1, &report) == PORT1_BAD_ARGUMENT);
    WANT(port1_sender_init(&sender) == PORT1_OK);
    WANT(port1_send_flag(&sender, none, 0, &at, &bits) == PORT1_NO_ROOM && bits == 8);
    WANT(port1_send_idle(&sender, none, 0, &at, &bits) == PORT1_NO_ROOM && bits == 15);
    WANT(port1_send_frame(&sender, frame, 2, none, 0, &at, &bits) == PORT1_NO_ROOM && bits >= 48);
    WANT(port1_send_frame(&sender, none, 0, octets, sizeof octets, &at, &bits) == PORT1_BAD_LENGTH);
    WANT(port1_send_frame(&sender, none, 0, none, 0, &at, &bits) == PORT1_BAD_LENGTH);
    WANT(at == 0 && sender.behind_flag == 0);
}

/* ---- a command and what becomes of it */

/* A command to station 16, and an answer from there of type 128, with their checks. */
static const uint8_t call[] = {0x10, 0x83, 0x00, 0xfd, 0xe5}, reply[] = {0x10, 0x83, 0x80, 0xf5, 0x61};

/* A table of the types 0, which asks for an answer within 16 bits, and 128, with no information in either. */
static struct port1_entry entries[129];
static struct port1_pair pair;
static struct port1_seen seen;

/* A pairing in which the command waits, of the only line, from place 8 up to 49. */
static void waiting(void) {
    static const struct port1_pair fresh = {0, 0, 0, 0, 0, 0};
    static const struct port1_report first = {PORT1_FRAME, 0, 8, 49};
    memset(entries, 0, sizeof entries);
    entries[0].known = entries[0].answered = entries[128].known = 1;
    entries[0].window = 16;
    memset(&pair, 9, sizeof pair);
    memset(&seen, 9, sizeof seen);
    WANT(port1_pair_init(&pair) == PORT1_OK && memcmp(&pair, &fresh, sizeof pair) == 0);
    WANT(port1_pair_take(&pair, entries, 129, 0, &first, call, sizeof call, &seen) == PORT1_OK);
    WANT(seen.standing == PORT1_KNOWN && seen.verdict == 0 && seen.stray == 0);
    WANT(seen.station == 16 && seen.control == 0 && seen.ftype == 0);
    WANT(pair.first == 8 && pair.past == 49 && pair.waits == 1 && pair.station == 16 && pair.ftype == 0);
    WANT(pair.spare == 0);
}

/* What is wanted of a report after the command, and whether this still waits. */
struct outcome {
    uint32_t standing, verdict, stray, waits;
};

/* Takes a report after the command. What becomes of the command tells which it is. */
static void want_taken(uint64_t count, uint32_t of_line, const struct port1_report *report, const uint8_t *octets,
                       struct outcome wanted) {
    waiting();
    WANT(port1_pair_take(&pair, entries, count, of_line, report, octets, 5, &seen) == PORT1_OK);
    WANT(seen.standing == wanted.standing && seen.verdict == wanted.verdict && seen.stray == wanted.stray);
    WANT(pair.waits == wanted.waits);
    if (seen.verdict != 0)
        WANT(seen.first == 8 && seen.past == 49 && seen.command_station == 16 && seen.command_type == 0);
}

/* By the report after the command and how many entries the table has. The window ends where the first bit is that of
 * place 65. */
static void verdicts(void) {
    static const struct {
        struct port1_report report;
        uint64_t count;
        struct outcome wanted;
    } rows[] = {{{PORT1_FRAME, 0, 57, 98}, 129, {PORT1_KNOWN, PORT1_ANSWERED, 0, 0}},
                {{PORT1_FRAME, 0, 65, 106}, 129, {PORT1_KNOWN, PORT1_ANSWERED, 0, 0}},
                {{PORT1_FRAME, 0, 66, 107}, 129, {PORT1_KNOWN, PORT1_LATE, 0, 0}},
                {{PORT1_FRAME, 0, 65, 106}, 128, {PORT1_UNKNOWN, PORT1_MISSING, 1, 0}},
                {{PORT1_DAMAGED, PORT1_FCS, 65, 106}, 129, {0, PORT1_SPOILT, 0, 0}},
                {{PORT1_OVERLONG, 0, 65, 106}, 129, {0, PORT1_SPOILT, 0, 0}},
                {{PORT1_ABORT, 0, 65, 106}, 129, {0, PORT1_SPOILT, 0, 0}},
                {{PORT1_IDLE, 0, 65, 106}, 129, {0, 0, 0, 1}}};
    for (size_t k = 0; k < sizeof rows / sizeof *rows; k++)
        want_taken(rows[k].count, 0, &rows[k].report, reply, rows[k].wanted);
}

/* Commands wait on the first line alone, and answers come on the second alone. */
static void two_lines(void) {
    static const struct {
        uint32_t of_line;
        const uint8_t *octets;
        struct outcome wanted;
    } rows[] = {{1, reply, {PORT1_KNOWN, PORT1_MISSING, 1, 0}},
                {2, reply, {PORT1_KNOWN, PORT1_ANSWERED, 0, 0}},
                {1, call, {PORT1_KNOWN, PORT1_MISSING, 0, 1}},
                {2, call, {PORT1_KNOWN, PORT1_MISSING, 0, 0}}};
    static const struct port1_report report = {PORT1_FRAME, 0, 65, 106};
    for (size_t k = 0; k < sizeof rows / sizeof *rows; k++)
        want_taken(129, rows[k].of_line, &report, rows[k].octets, rows[k].wanted);
}

/* The line, kind and cause of no report that there is, and how many octets it has: it changes nothing. */
static void refused_reports(void) {
    static const struct {
        uint32_t of_line, kind, cause;
        uint64_t count;
    } rows[] = {{3, PORT1_IDLE, 0, 0},  {UINT32_MAX, PORT1_IDLE, 0, 0}, {0, PORT1_NONE, 0, 0},   {0, 6, 0, 0},
                {0, PORT1_FRAME, 0, 3}, {0, PORT1_DAMAGED, 0, 0},       {0, PORT1_DAMAGED, 5, 0}};
    for (size_t k = 0; k < sizeof rows / sizeof *rows; k++) {
        const struct port1_report bad = {rows[k].kind, rows[k].cause, 65, 106};
        struct port1_seen unseen;
        struct port1_pair before;
        waiting();
        before = pair;
        memset(&unseen, 9, sizeof unseen);
        seen = unseen;
        WANT(port1_pair_take(&pair, entries, 129, rows[k].of_line, &bad, reply, rows[k].count, &seen)
             == PORT1_BAD_ARGUMENT);
        WANT(memcmp(&pair, &before, sizeof pair) == 0 && memcmp(&seen, &unseen, sizeof seen) == 0);
    }
}

/* The cause is read of a damaged piece alone. */
static void causes_of_others(void) {
    static const struct port1_report others[] = {{PORT1_IDLE, 77, 65, 80}, {PORT1_FRAME, 9, 65, 106}};
    for (size_t k = 0; k < sizeof others / sizeof *others; k++) {
        waiting();
        WANT(port1_pair_take(&pair, entries, 129, 0, &others[k], reply, sizeof reply, &seen) == PORT1_OK);
    }
    WANT(seen.verdict == PORT1_ANSWERED);
}

static void version(void) {
    char text[32];
    snprintf(text, sizeof text, "%d.%d.%d", PORT1_VERSION_MAJOR, PORT1_VERSION_MINOR, PORT1_VERSION_PATCH);
    WANT(strcmp(text, PORT1_VERSION) == 0);
}

#define TEST(name) {#name, name}

int main(int count, char **words) {
    static const struct {
        const char *name;
        void (*run)(void);
    } tests[] = {TEST(pushed_bits),       TEST(fed_in_cuts), TEST(fed_by_octets),    TEST(decoders_are_made),
                 TEST(no_decoder),        TEST(one_number_wrong), TEST(bits_asked_for), TEST(last_places),
                 TEST(sent_bits),         TEST(refused_sends), TEST(verdicts),       TEST(two_lines),
                 TEST(refused_reports),   TEST(open_pieces), TEST(longest_sent),     TEST(send_align),
                 TEST(null_octets),       TEST(causes_of_others), TEST(version)};
    int ran = 0;
    for (size_t k = 0; k < sizeof tests / sizeof *tests; k++) {
        if (count > 1 && strcmp(words[1], tests[k].name) != 0)
            continue;
        tests[k].run();
        ran = 1;
    }
    WANT(ran);
    return wrong;
}
