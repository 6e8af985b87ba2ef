/* A tap of two lines with a clock each, in place of a logic analyser: writes their bits in the order in which they
 * came, as `port1 list --bits --arrivals` and `bus-watch` read them; `!` stands where bits were lost, and port1 stops
 * there. The proved program on the host finds the frames; this needs no library.
 *
 * Here each octet that a UART receives is an edge of a clock, with the level of the data: UART1 for TxC and TxD of the
 * controller, UART2 for RxC and RxD of the stations. On a real board these are the interrupts of two pins, of equal
 * priority: each reads the data at the clock's edge in the middle of the bit, and calls `received`. Both come 153600
 * times a second; a bit takes 84 instructions here. At most 312,000 letters a second go out: by USB, or at 4 Mbaud. */
#include "board.h"
#include "ring.h"

enum { CONTROLLER = UART1, STATIONS = UART2, LETTERS_A_LINE = 64 };

void received(unsigned uart, uint8_t level) {
    const uint8_t letter = (uint8_t)(uart == CONTROLLER ? "01"[level & 1] : "oi"[level & 1]);
    const uint32_t room = ring_room();
    if (room > 0)
        ring_put(room > 1 ? letter : '!');
}

int main(void) {
    board_begin(CONTROLLER | STATIONS);
    for (uint32_t letters = 1;; letters++) {
        put_letter((char)ring_take());
        if (letters % LETTERS_A_LINE == 0)
            put_letter('\n');
    }
}
