/* The baseline for `port1 list --two`: two decoders, a bit of the first line and then one of the second.
 *
 *     pairs text|packed < CAPTURE
 */
#include "listing.h"

static struct line first_line = {.front = "1 "}, second_line = {.front = "2 "};

static void take_pair(int pair) {
    take(&first_line, pair & 1);
    take(&second_line, pair >> 1);
}

int main(int argc, char **argv) {
    static uint8_t buffer[65536];
    uint64_t left = 0;
    int packed = read_form(argc, argv, "TS2BITS2", &left);
    size_t got;
    if (packed < 0)
        return 2;
    while ((got = fread(buffer, 1, sizeof buffer, stdin)) > 0)
        for (size_t i = 0; i < got; i++) {
            uint8_t mark = buffer[i];
            if (packed) {
                for (int j = 0; j < 8 && left > 0; j += 2, left--)
                    take_pair(mark >> j & 3);
            } else if (mark >= '0' && mark <= '3')
                take_pair(mark - '0');
            else if (!is_space(mark))
                return 2;
        }
    say_open(&first_line);
    say_open(&second_line);
    return 0;
}
