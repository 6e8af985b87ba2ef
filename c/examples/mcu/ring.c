#include "ring.h"
#include "board.h"

/* Each number has one writer, so no interrupt need be off. */
#define OCTETS 8192u
static volatile uint8_t ring[OCTETS];
static volatile uint32_t written, taken;

uint32_t ring_room(void) { return OCTETS - (written - taken); }

void ring_put(uint8_t octet) { ring[written++ % OCTETS] = octet; }

uint8_t ring_take(void) {
    board_wait(&written, taken);
    const uint8_t octet = ring[taken % OCTETS];
    taken++;
    return octet;
}
