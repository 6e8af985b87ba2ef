/* Octets on their way from interrupts, of which none interrupts another, to the main loop. */
#ifndef RING_H
#define RING_H

#include <stdint.h>

/* How many octets there is room for. */
uint32_t ring_room(void);

/* Puts an octet in, for which there is to be room; interrupts call it. */
void ring_put(uint8_t octet);

/* The next octet, in the order put in; waits for it. The main loop calls it. */
uint8_t ring_take(void);

#endif
