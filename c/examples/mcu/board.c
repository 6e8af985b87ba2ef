#include "board.h"

struct uart {
    volatile uint32_t data, state, control, interrupt, divider;
};

#define UART(number) ((struct uart *)(0x40004000u + 4096u * (number)))
#define INTERRUPTS_ON (*(volatile uint32_t *)0xE000E100u)

enum { SEND_FULL = 1, RECEIVE_FULL = 2, SEND_ON = 1, RECEIVE_ON = 2, RECEIVE_INTERRUPT = 8, RECEIVED = 2 };

static void receive(unsigned number) {
    struct uart *const uart = UART(number);
    while (uart->state & RECEIVE_FULL) {
        const uint8_t octet = (uint8_t)uart->data;
        uart->interrupt = RECEIVED;
        received(1u << number, octet);
    }
}

static void uart0_receives(void) { receive(0); }
static void uart1_receives(void) { receive(1); }
static void uart2_receives(void) { receive(2); }

void board_begin(unsigned uarts) {
    for (unsigned number = 0; number < 3; number++) {
        struct uart *const uart = UART(number);
        const uint32_t receives = uarts >> number & 1;
        uart->divider = 16;
        uart->control = SEND_ON | (receives ? RECEIVE_ON | RECEIVE_INTERRUPT : 0);
        INTERRUPTS_ON = receives << 2 * number; /* a UART receives by interrupt 0, 2 or 4 */
    }
}

/* While interrupts are off, one that is due still ends wfi: none comes unseen between the look and the wait. */
void board_wait(const volatile uint32_t *written, uint32_t taken) {
    __asm volatile("cpsid i" ::: "memory");
    while (*written == taken)
        __asm volatile("wfi\n cpsie i\n isb\n cpsid i" ::: "memory");
    __asm volatile("cpsie i" ::: "memory");
}

void put_letter(char letter) {
    while (UART(0)->state & SEND_FULL) {
    }
    UART(0)->data = (uint8_t)letter;
}

void put_text(const char *text) {
    while (*text)
        put_letter(*text++);
}

void put_number(uint64_t number) {
    char digits[20];
    unsigned count = 0;
    do
        digits[count++] = (char)('0' + number % 10);
    while (number /= 10);
    while (count)
        put_letter(digits[--count]);
}

void board_end(void) {
    register uint32_t operation __asm("r0") = 0x18, reason __asm("r1") = 0x20026; /* semihosting: the program exits */
    __asm volatile("bkpt 0xab" : : "r"(operation), "r"(reason) : "memory");
    for (;;) {
    }
}

/* The vectors, and what runs before main. */
extern uint32_t load_begin, data_begin, data_end, bss_begin, bss_end;
extern void stack_top(void); /* no function, but the first vector */
int main(void);
void board_reset(void);

void board_reset(void) {
    for (uint32_t *to = &data_begin, *from = &load_begin; to < &data_end;)
        *to++ = *from++;
    for (uint32_t *to = &bss_begin; to < &bss_end;)
        *to++ = 0;
    main();
    board_end();
}

static void stop(void) {
    for (;;) {
    }
}

typedef void (*handler)(void);

__attribute__((section(".vectors"), used)) static const handler vectors[48] = {
    stack_top, board_reset, stop, stop, stop, stop, stop, 0, 0, 0, 0, stop, stop, 0, stop, stop,
    [16] = uart0_receives, [18] = uart1_receives, [20] = uart2_receives,
};
