/* Prints each good frame as it closes, from octets that come one at a time on standard input. A serial controller
 * gives such octets that packs eight bits of the line in one, the first lowest. */
#include "port1.h"
#include <stdio.h>

/* What a loop that reads the controller would call. */
static uint32_t receive(struct port1_line *line, uint8_t octet) {
    uint64_t at = 0;
    while (at < 8) {
        struct port1_report report = {0, 0, 0, 0};
        uint32_t status = port1_line_feed(line, &octet, 1, &at, 8, &report);
        if (status != PORT1_OK)
            return status;
        if (report.kind == PORT1_FRAME) {
            printf("%llu:", (unsigned long long)report.past);
            for (unsigned i = 0; i < line->count; i++)
                printf(" %02x", (unsigned)line->octets[i]);
            putchar('\n');
            fflush(stdout);
        }
    }
    return PORT1_OK;
}

int main(void) {
    static struct port1_line line;
    int octet;
    if (port1_line_init(&line, 256, 0) != PORT1_OK)
        return 2;
    while ((octet = getchar()) != EOF)
        if (receive(&line, (uint8_t)octet) != PORT1_OK)
            return 2;
    return 0;
}
