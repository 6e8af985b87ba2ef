/* The baseline for `port1 list`: one bit after the other.
 *
 *     plain text|packed < CAPTURE
 */
#include "listing.h"

static struct line line;

int main(int argc, char **argv) {
    static uint8_t buffer[65536];
    uint64_t left = 0;
    int packed = read_form(argc, argv, "TS2BITS1", &left);
    size_t got;
    if (packed < 0)
        return 2;
    while ((got = fread(buffer, 1, sizeof buffer, stdin)) > 0)
        for (size_t i = 0; i < got; i++) {
            uint8_t mark = buffer[i];
            if (packed) {
                for (int j = 0; j < 8 && left > 0; j++, left--)
                    take(&line, mark >> j & 1);
            } else if (!take_mark(&line, mark))
                return 2;
        }
    say_open(&line);
    return 0;
}
