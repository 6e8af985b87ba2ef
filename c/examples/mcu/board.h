/* A board with a Cortex-M3, as qemu-system-arm emulates it (mps2-an385): octets come in by UARTs and text goes out by
 * UART0. On another board, this and board.c are what is to be written anew. */
#ifndef BOARD_H
#define BOARD_H

#include <stdint.h>

enum { UART0 = 1, UART1 = 2, UART2 = 4 };

/* Turns UART0 on, and the receive interrupts of these UARTs, of which none interrupts another. */
void board_begin(unsigned uarts);

/* What the firmware does with an octet that one of them received; its interrupt calls it. */
void received(unsigned uart, uint8_t octet);

/* Waits until there is an interrupt after `*written` was found to equal `taken`. */
void board_wait(const volatile uint32_t *written, uint32_t taken);

/* Text, and a number in decimal digits. */
void put_letter(char letter);
void put_text(const char *text);
void put_number(uint64_t number);

/* Ends the emulator; a real board would go on for ever. */
void board_end(void);

#endif
