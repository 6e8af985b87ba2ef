/* An octet with its bits the other way round, for a controller that has the first bit highest. */

#include <stdint.h>

static uint8_t reversed(uint8_t octet) {
    uint8_t back = 0;
    for (int k = 0; k < 8; k++)
        back |= (uint8_t)((octet >> k & 1) << (7 - k));
    return back;
}
