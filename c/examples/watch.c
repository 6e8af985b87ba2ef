/* Tells what became of each command in a text capture from standard input, and of each answer that answers none, in the
 * lines of `port1 list`: the decoder and the pairing of the C library, without memory from the system.
 *
 *     watch [--two] TYPE,LENGTH.. TYPE,LENGTH,WINDOW..
 *
 * The words are a dictionary: a type with the number of octets after it, and for a command that is to be answered the
 * window in bits, or 0 for no limit. With --two the capture is of two lines, with the octets 0 to 3. Other octets than
 * bits are skipped. */
#include "port1.h"
#include <stdio.h>
#include <string.h>

#define TYPES 256

static const char *const verdicts[] = {"", "answered", "late", "missing", "spoilt"};

/* Two lines, of which the second is idle where there is one, and what is kept of their reports. */
struct bus {
    struct port1_line lines[2];
    struct port1_entry entries[TYPES];
    struct port1_pair pair;
    int is_two;
};

/* Reads a word of the dictionary. */
static int add_entry(struct bus *bus, const char *word) {
    unsigned type = 0, length = 0, window = 0;
    int count = sscanf(word, "%u,%u,%u", &type, &length, &window);
    if (count < 2 || type >= TYPES || length > 253)
        return 0;
    bus->entries[type].known = 1;
    bus->entries[type].length = (uint8_t)length;
    bus->entries[type].answered = count == 3;
    bus->entries[type].window = (uint32_t)window;
    return 1;
}

/* The longest frame of the dictionary in octets, address, control and type among them. */
static uint64_t longest(const struct bus *bus) {
    uint64_t most = 0;
    for (unsigned type = 0; type < TYPES; type++)
        if (bus->entries[type].known && bus->entries[type].length + 3u > most)
            most = bus->entries[type].length + 3u;
    return most ? most : 256;
}

static void print(const struct bus *bus, unsigned line, uint64_t first, uint64_t past, const char *word,
                  unsigned station, unsigned type) {
    if (bus->is_two)
        printf("%u ", line);
    printf("%llu %llu %s", (unsigned long long)first, (unsigned long long)past, word);
    printf(" station %u type %u\n", station, type);
}

/* Takes a report of a line, 0 or 1. */
static int take(struct bus *bus, unsigned line, const struct port1_report *report) {
    const struct port1_line *from = &bus->lines[line];
    struct port1_seen seen = {0, 0, 0, 0, 0, 0, 0, 0, 0, 0, {0}};
    uint64_t count = report->kind == PORT1_FRAME ? from->count : 0;
    uint32_t number = bus->is_two ? line + 1 : 0;
    if (port1_pair_take(&bus->pair, bus->entries, TYPES, number, report, from->octets, count, &seen))
        return 0;
    if (seen.verdict)
        print(bus, 1, seen.first, seen.past, verdicts[seen.verdict], seen.command_station, seen.command_type);
    if (seen.stray)
        print(bus, line + 1, report->first, report->past, "stray", seen.station, seen.ftype);
    return 1;
}

/* Takes a bit of a line. */
static int push(struct bus *bus, unsigned line, int bit) {
    struct port1_report report = {0, 0, 0, 0};
    if (port1_line_push(&bus->lines[line], (uint8_t)bit, &report))
        return 0;
    return report.kind == PORT1_NONE || take(bus, line, &report);
}

int main(int argc, char **argv) {
    static struct bus bus;
    int octet;
    for (int i = 1; i < argc; i++) {
        if (strcmp(argv[i], "--two") == 0)
            bus.is_two = 1;
        else if (!add_entry(&bus, argv[i]))
            return 2;
    }
    for (unsigned line = 0; line < 2; line++)
        if (port1_line_init(&bus.lines[line], longest(&bus), 0))
            return 2;
    while ((octet = getchar()) != EOF) {
        int mark = octet - '0';
        if (mark < 0 || mark > (bus.is_two ? 3 : 1))
            continue;
        if (!push(&bus, 0, mark & 1) || (bus.is_two && !push(&bus, 1, mark >> 1)))
            return 2;
    }
    if (bus.pair.waits)
        print(&bus, 1, bus.pair.first, bus.pair.past, "pending", bus.pair.station, bus.pair.ftype);
    return 0;
}
