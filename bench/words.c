/* The fastest peer of `port1 list`, by words of 64 bits: what this processor can do in practice.
 *
 *     words text|packed < CAPTURE
 *
 * It keeps the raw bits packed, whatever the form of the capture. In each word it looks for runs of six ones
 * and more, which alone can be flags, aborts and idle lines. Only where a flag closes a piece does it take
 * the inserted 0s out of the bits of that piece, 48 at a time. It reads a text, takes out 0s, divides and
 * writes hexadecimal by AVX2, BMI2 and PCLMUL where -march=native allows them, else by shifts and tables. It
 * takes octets in memory as words, the lowest first, as x86 and ARM do. */
#include "listing.h"

#if defined(__AVX2__) && defined(__BMI2__) && defined(__PCLMUL__)
#include <immintrin.h>
#define VECTORS 1
#else
#define VECTORS 0
#endif

/* A piece of more raw bits is too long whatever they are: of six at least five are data. Such a piece, and
 * what a word reads of its surroundings, fits in the octets that are kept when more are read. */
enum { MOST_RAW = ROOM * 8 * 6 / 5 + 6, KEPT = 512, CHUNK = 65536, SPARE = 64, LINE = 2 * ROOM + 128 };

/* The raw bits: what is kept, then what is being taken, `filled` octets in all, and some that are 0. The
 * place of a bit is its index here and `origin`. */
static uint8_t raw[KEPT + 16 + CHUNK + SPARE];
static size_t filled;
static uint64_t origin;

/* Where the next run of ones may begin, and whether this is within a run that has been told. */
static size_t next;
static int in_ones;

/* Whether a flag has opened a piece, and the place of its first bit. */
static int is_open;
static uint64_t first;

/* The octets of a piece. In front of them are 0s, and what turns a check that begins with 0 into one
 * that begins with 65535. */
enum { LEAD = 32 };
static uint8_t cells[LEAD + ROOM + SPARE + 8] = {[LEAD - 2] = 0x21, [LEAD - 1] = 0xf3};
static uint8_t *const octets = cells + LEAD;

static uint64_t load(const void *from) {
    uint64_t word;
    memcpy(&word, from, 8);
    return word;
}

static void store(void *to, uint64_t word) { memcpy(to, &word, 8); }

/* The raw bits from this one on, at least 57 of them. */
static inline uint64_t bits_at(size_t index) { return load(raw + index / 8) >> index % 8; }

/* What is written. */

static char written[CHUNK + LINE];
static char *end = written;

/* Writes the lines that wait. */
static void flush(void) {
    fwrite(written, 1, (size_t)(end - written), stdout);
    end = written;
}

/* The four digits of each number below 10000, and the digits of what stands in front of them in the
 * places that were written last: `base` / 10000. */
static char fours[10000][4];
static char front[24];
static size_t front_length;
static uint64_t base = 0 - (uint64_t)20000;

static void make_fours(void) {
    for (unsigned i = 0; i < 10000; i++) {
        fours[i][0] = (char)('0' + i / 1000);
        fours[i][1] = (char)('0' + i / 100 % 10);
        fours[i][2] = (char)('0' + i / 10 % 10);
        fours[i][3] = (char)('0' + i % 10);
    }
}

/* A number, and where what follows it goes; so do all that put something. */
static char *put_number(char *to, uint64_t number) {
    char digits[20];
    size_t count = 0;
    do
        digits[count++] = (char)('0' + number % 10);
    while ((number /= 10) > 0);
    while (count > 0)
        *to++ = digits[--count];
    return to;
}

/* A place with another front than the last, or without one. */
static __attribute__((noinline)) char *put_other_place(char *to, uint64_t place) {
    if (place >= 10000) {
        base = place / 10000 * 10000;
        front_length = (size_t)(put_number(front, place / 10000) - front);
    }
    return put_number(to, place);
}

static inline char *put_place(char *to, uint64_t place) {
    uint64_t low = place - base;
    if (low >= 10000)
        return put_other_place(to, place);
    memcpy(to, front, 16);
    memcpy(to + front_length, fours[low], 4);
    return to + front_length + 4;
}

/* The two places of a line and a space. */
static inline char *put_places(uint64_t from, uint64_t past) {
    if (end >= written + CHUNK)
        flush();
    char *to = put_place(end, from);
    *to = ' ';
    to = put_place(to + 1, past);
    *to = ' ';
    return to + 1;
}

/* A line without octets. */
static inline void say_line(uint64_t from, uint64_t past, const char *what, size_t length) {
    char *to = put_places(from, past);
    memcpy(to, what, length);
    end = to + length;
}

#define SAY(from, past, what) say_line(from, past, what "\n", sizeof what)

/* What the processor has instructions for, or not. */

#if VECTORS

/* The bits that are kept, with no gaps among them. */
static inline uint64_t kept_of(uint64_t bits, uint64_t kept) { return _pext_u64(bits, kept); }

/* Whether the check of so many octets is good: whether their polynomial, and ones for the last sixteen
 * bits, is divisible by that of the check. 128 bits are folded into the next 128, and the last into 64.
 * These are multiplied by the inverse, which gives a quotient of 48 bits just where there is no rest. */
static inline int is_good(size_t count) {
    const __m128i by_128 = _mm_set_epi64x(0x7eea000000000000, (long long)0xa95d000000000000);
    const __m128i by_64 = _mm_set_epi64x(0, 0x042b000000000000);
    const __m128i inverse = _mm_set_epi64x(0, (long long)0x859b040b1c581911);
    const __m128i last = _mm_set_epi64x((long long)0xffff000000000000, 0);
    size_t blocks = (count + 2 + 15) / 16;
    const uint8_t *from = octets + count - 16 * blocks;
    __m128i rest = _mm_loadu_si128((const __m128i *)from);
    while (--blocks > 0) {
        from += 16;
        rest = _mm_xor_si128(_mm_clmulepi64_si128(rest, by_128, 0x00), _mm_clmulepi64_si128(rest, by_128, 0x11));
        rest = _mm_xor_si128(rest, _mm_loadu_si128((const __m128i *)from));
    }
    rest = _mm_xor_si128(rest, last);
    __m128i product = _mm_clmulepi64_si128(rest, by_64, 0x00);
    rest = _mm_xor_si128(rest, product);
    product = _mm_clmulepi64_si128(product, by_64, 0x00);
    rest = _mm_xor_si128(rest, product);
    return (uint64_t)_mm_cvtsi128_si64(_mm_clmulepi64_si128(rest, inverse, 0x01)) >> 48 == 0;
}

/* So many octets of a piece in hexadecimal; up to 30 marks after them are overwritten. */
static inline void put_digits(char *to, size_t count) {
    const __m256i digits = _mm256_broadcastsi128_si256(_mm_loadu_si128((const __m128i *)"0123456789abcdef"));
    for (size_t i = 0; i < count; i += 16) {
        __m256i wide = _mm256_cvtepu8_epi16(_mm_loadu_si128((const __m128i *)(octets + i)));
        wide = _mm256_or_si256(_mm256_srli_epi16(wide, 4), _mm256_slli_epi16(wide, 8));
        wide = _mm256_shuffle_epi8(digits, _mm256_and_si256(wide, _mm256_set1_epi8(15)));
        _mm256_storeu_si256((__m256i *)(to + 2 * i), wide);
    }
}

static void make_digits(void) {}

/* Which of 64 marks are bits, and which of them are 1; 0 where one is neither a bit nor a space. */
static inline int read_marks(const uint8_t *marks, uint64_t *bits, uint64_t *ones) {
    const __m256i spaces = _mm256_setr_epi8(' ', 0, 0, 0, 0, 0, 0, 0, 0, '\t', '\n', 0, 0, '\r', 0, 0,
                                            ' ', 0, 0, 0, 0, 0, 0, 0, 0, '\t', '\n', 0, 0, '\r', 0, 0);
    const __m256i zeros = _mm256_set1_epi8('0'), but_lowest = _mm256_set1_epi8(-2);
    __m256i low = _mm256_loadu_si256((const __m256i *)marks);
    __m256i high = _mm256_loadu_si256((const __m256i *)(marks + 32));
    __m256i low_bits = _mm256_cmpeq_epi8(_mm256_and_si256(low, but_lowest), zeros);
    __m256i high_bits = _mm256_cmpeq_epi8(_mm256_and_si256(high, but_lowest), zeros);
    __m256i low_known = _mm256_or_si256(low_bits, _mm256_cmpeq_epi8(_mm256_shuffle_epi8(spaces, low), low));
    __m256i high_known = _mm256_or_si256(high_bits, _mm256_cmpeq_epi8(_mm256_shuffle_epi8(spaces, high), high));
    *bits = (uint32_t)_mm256_movemask_epi8(low_bits) | (uint64_t)(uint32_t)_mm256_movemask_epi8(high_bits) << 32;
    *ones = (uint32_t)_mm256_movemask_epi8(_mm256_slli_epi16(low, 7)) |
            (uint64_t)(uint32_t)_mm256_movemask_epi8(_mm256_slli_epi16(high, 7)) << 32;
    return _mm256_movemask_epi8(_mm256_and_si256(low_known, high_known)) == -1;
}

#else

/* Closes the gaps, the highest first. */
static inline uint64_t kept_of(uint64_t bits, uint64_t kept) {
    if (kept == 0)
        return 0;
    bits &= kept;
    for (uint64_t gaps = ~kept & ~(uint64_t)0 >> __builtin_clzll(kept); gaps != 0;) {
        uint64_t below = ((uint64_t)1 << (63 - __builtin_clzll(gaps))) - 1;
        bits = (bits & below) | (bits >> 1 & ~below);
        gaps &= below;
    }
    return bits;
}

static int is_good(size_t count) {
    uint16_t check = 0xffff;
    for (size_t i = 0; i < count; i++)
        check = check >> 8 ^ table[(check ^ octets[i]) & 0xff];
    return check == 0xf0b8;
}

static char digits_of[256][2];

static void make_digits(void) {
    for (unsigned i = 0; i < 256; i++) {
        digits_of[i][0] = "0123456789abcdef"[i >> 4];
        digits_of[i][1] = "0123456789abcdef"[i & 15];
    }
}

static void put_digits(char *to, size_t count) {
    for (size_t i = 0; i < count; i++)
        memcpy(to + 2 * i, digits_of[octets[i]], 2);
}

static int read_marks(const uint8_t *marks, uint64_t *bits, uint64_t *ones) {
    *bits = *ones = 0;
    for (int i = 0; i < 64; i += 8) {
        uint64_t eight = load(marks + i) ^ 0x3030303030303030;
        if ((eight & 0xfefefefefefefefe) == 0) {
            *bits |= (uint64_t)0xff << i;
            *ones |= eight * 0x0102040810204080 >> 56 << i;
            continue;
        }
        for (int j = i; j < i + 8; j++)
            if ((marks[j] & 0xfe) == '0') {
                *bits |= (uint64_t)1 << j;
                *ones |= (uint64_t)(marks[j] & 1) << j;
            } else if (!is_space(marks[j]))
                return 0;
    }
    return 1;
}

#endif

/* Pieces. */

/* Where the next data goes: the octet, and the bits that it has. */
struct data {
    uint8_t *to;
    uint64_t held;
    unsigned count;
};

/* Adds the data of at most 48 raw bits, which have eight others in front of them. */
static inline void add_data(struct data *data, uint64_t with_eight, uint64_t mask) {
    uint64_t twos = with_eight & with_eight >> 1;
    uint64_t fives = twos & twos >> 2 & with_eight >> 4;
    uint64_t kept = ~(fives >> 3) & mask;
    data->held |= kept_of(with_eight >> 8, kept) << data->count;
    data->count += (unsigned)__builtin_popcountll(kept);
    store(data->to, data->held);
    data->to += data->count / 8;
    data->held >>= data->count & ~7u;
    data->count %= 8;
}

/* Puts the octets of raw bits where a piece's octets are; how many bits of data there are. */
static inline size_t data_of(size_t index, size_t length) {
    const uint64_t full = ((uint64_t)1 << 48) - 1;
    const uint8_t *from = raw + index / 8 - 1;
    unsigned skipped = index % 8;
    struct data data = {octets, 0, 0};
    for (; length > 48; length -= 48, from += 6)
        add_data(&data, load(from) >> skipped, full);
    add_data(&data, load(from) >> skipped, full >> (48 - length));
    return (size_t)(data.to - octets) * 8 + data.count;
}

static void say_frame(uint64_t past, size_t count) {
    char *to = put_places(first, past);
    memcpy(to, "frame ", 6);
    put_digits(to + 6, count);
    to += 6 + 2 * count;
    *to = '\n';
    end = to + 1;
}

/* Takes the piece that lies before this index. */
static inline void take_piece(size_t index) {
    uint64_t past = origin + index, length = past - first;
    if (!is_open || (int64_t)length <= 0)
        return;
    if ((bits_at(index - 5) & 31) == 31) {
        SAY(first, past, "damaged unstuffed");
        return;
    }
    size_t bits = length > MOST_RAW ? MOST_RAW : data_of(index - length, length);
    if (bits > 8 * ROOM)
        SAY(first, past, "overlong");
    else if (bits < 32)
        SAY(first, past, "damaged short");
    else if (bits % 8 != 0)
        SAY(first, past, "damaged unaligned");
    else if (!is_good(bits / 8))
        SAY(first, past, "damaged fcs");
    else
        say_frame(past, bits / 8);
}

/* Runs of ones. */

/* The index of the first 0 from this one on; there are 0s after all bits. */
static size_t past_ones(size_t index) {
    const uint8_t *from = raw + index / 8;
    uint64_t word = load(from) | (((uint64_t)1 << index % 8) - 1);
    while (word == ~(uint64_t)0) {
        from += 8;
        word = load(from);
    }
    return (size_t)(from - raw) * 8 + (size_t)__builtin_ctzll(~word);
}

/* Takes a run of seven ones or more; where it ends. */
static __attribute__((noinline)) size_t take_ones(size_t index) {
    uint64_t past = origin + index;
    size_t after = past_ones(index);
    if (is_open && past > first)
        SAY(first, past, "abort");
    is_open = 0;
    if (after - index >= 15) {
        first = past;
        SAY(first, first + 15, "idle");
    }
    in_ones = after == filled * 8;
    return after;
}

/* Takes the flags right after a flag, eight at a time; where the last of them ends. */
static __attribute__((noinline)) size_t take_flags(size_t index) {
    const uint8_t *from = raw + index / 8, *begin = from;
    unsigned turned = index % 8;
    uint64_t flags = (uint64_t)0x7e7e7e7e7e7e7e7e << turned | (uint64_t)0x7e >> 1 >> (7 - turned);
    while (from + 8 <= raw + filled && load(from) == flags)
        from += 8;
    return from == begin ? index : (size_t)(from - raw) * 8 - 8 + turned;
}

/* Takes a run of six ones or more; where it ends, or the flag. */
static inline size_t take_run(size_t index) {
    uint64_t ahead = bits_at(index);
    if ((ahead & 0x7f) != 0x3f)
        return take_ones(index);
    take_piece(index - 1);
    size_t after = index + 7;
    if ((ahead & 0x7fff) == 0x3f3f)
        after = take_flags(after);
    is_open = 1;
    first = origin + after;
    return after;
}

/* The bits of a word from an index on, which may lie beyond it. */
static inline uint64_t bits_from(uint64_t bits, size_t index) {
    return index < 64 ? bits & ~(uint64_t)0 << index : 0;
}

/* Takes the runs that begin in the word at an index, before a limit, and were not taken. */
static inline void take_word(uint64_t sixes, size_t begin, size_t limit) {
    if (next > begin)
        sixes = bits_from(sixes, next - begin);
    while (sixes != 0) {
        size_t index = begin + (size_t)__builtin_ctzll(sixes);
        if (index >= limit)
            return;
        next = take_run(index);
        sixes = bits_from(sixes, next - begin);
    }
}

/* Takes the runs that begin before an index. A word shows where six ones begin in its first 59 bits; 56 of
 * them are new. */
static void take_runs(size_t limit) {
    const uint8_t *last = raw + (limit + 7) / 8;
    for (const uint8_t *from = raw + next / 8; from < last; from += 7) {
        uint64_t word = load(from), twos = word & word >> 1;
        uint64_t sixes = twos & twos >> 2 & twos >> 4;
        if (__builtin_expect(sixes == 0, 1))
            continue;
        take_word(sixes, (size_t)(from - raw) * 8, limit);
        if (next > (size_t)(from - raw) * 8 + 63)
            from = raw + next / 8 - 7;
    }
}

/* Takes the bits that have come, all but those of the last sixteen octets, and makes room for more. */
static void take_most(void) {
    if (filled < KEPT + 2 * 8)
        return;
    memset(raw + filled, 0, SPARE);
    if (in_ones) {
        next = past_ones(next);
        in_ones = next == filled * 8;
    }
    size_t limit = (filled - 16) * 8, moved = filled - 16 - KEPT;
    if (next < limit)
        take_runs(limit);
    if (next < limit)
        next = limit;
    memmove(raw, raw + moved, filled - moved);
    origin += moved * 8;
    next -= moved * 8;
    filled -= moved;
}

/* Takes the rest, up to an index, after which no flag ends, and says what is open at a good end. */
static void take_rest(size_t count, int good) {
    memset(raw + filled, 0, SPARE);
    filled = count / 8;
    if (in_ones)
        next = past_ones(next);
    if (count > 6 && next < count - 6)
        take_runs(count - 6);
    if (good && is_open && origin + count > first)
        SAY(first, origin + count, "open");
    flush();
}

/* Captures. */

/* Six ones and a 0 at the very beginning are no flag. */
static void begin(void) {
    next = KEPT * 8;
    if ((raw[KEPT] & 0x7f) == 0x3f)
        next += 7;
}

static int take_packed(uint64_t left) {
    uint64_t octets_left = left / 8 + (left % 8 != 0);
    size_t got;
    while (octets_left > 0 && (got = fread(raw + filled, 1, CHUNK, stdin)) > 0) {
        if (got > octets_left)
            got = octets_left;
        octets_left -= got;
        filled += got;
        if (next == 0)
            begin();
        if (octets_left > 0)
            take_most();
    }
    size_t count = filled * 8;
    if (octets_left == 0 && left % 8 != 0) {
        count -= 8 - left % 8;
        raw[filled - 1] &= (uint8_t)(0xff >> (8 - left % 8));
    }
    take_rest(count, 1);
    return 0;
}

/* Bits of a text that are no whole word yet. */
static uint64_t waiting;
static unsigned waiting_count;

static inline void add_bits(uint64_t bits, unsigned count) {
    store(raw + filled, waiting | bits << waiting_count);
    uint64_t over = bits >> 1 >> (63 - waiting_count);
    unsigned sum = waiting_count + count;
    waiting = sum >= 64 ? over : waiting | bits << waiting_count;
    filled += sum / 64 * 8;
    waiting_count = sum % 64;
}

/* Adds the bits of marks up to the first that is neither bit nor space. */
static void add_up_to_fault(const uint8_t *marks) {
    for (; (*marks & 0xfe) == '0' || is_space(*marks); marks++)
        if (!is_space(*marks))
            add_bits(*marks & 1, 1);
}

/* Adds the bits of marks, 64 at a time; 0 where one is neither bit nor space. */
static int add_marks(const uint8_t *marks, size_t count) {
    for (size_t i = 0; i < count; i += 64) {
        uint64_t bits, ones;
        if (!read_marks(marks + i, &bits, &ones)) {
            add_up_to_fault(marks + i);
            return 0;
        }
        add_bits(kept_of(ones, bits), (unsigned)__builtin_popcountll(bits));
    }
    return 1;
}

static int take_text(void) {
    static uint8_t marks[CHUNK + 64];
    size_t got;
    int good = 1;
    while (good && (got = fread(marks, 1, CHUNK, stdin)) > 0) {
        memset(marks + got, ' ', 64);
        good = add_marks(marks, got);
        if (next == 0 && filled > KEPT)
            begin();
        take_most();
    }
    size_t count = filled * 8 + waiting_count;
    store(raw + filled, waiting);
    filled += (waiting_count + 7) / 8;
    if (next == 0)
        begin();
    take_rest(count, good);
    return good ? 0 : 2;
}

int main(int argc, char **argv) {
    uint64_t left = 0;
    int packed = read_form(argc, argv, "TS2BITS1", &left);
    if (packed < 0)
        return 2;
    make_fours();
    make_digits();
    filled = KEPT;
    origin = 0 - (uint64_t)KEPT * 8;
    return packed ? take_packed(left) : take_text();
}
