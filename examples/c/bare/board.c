/*
 * The board mps2-an386 of ARM, as QEMU has it: a tick of a millisecond by the processor's own timer, and UART 0. The
 * interrupt handler of the UART puts what comes into a ring, and the main loop takes it from there. So no call of the
 * library is made from an interrupt handler, and none reads what one writes.
 */
#include "board.h"

enum { PROCESSOR_HZ = 25000000, TICK_HZ = 1000, BAUD = 115200 };

/* The timer of each Cortex-M. */
#define SYSTICK_CONTROL (*(volatile uint32_t *)0xe000e010)
#define SYSTICK_RELOAD (*(volatile uint32_t *)0xe000e014)
#define SYSTICK_VALUE (*(volatile uint32_t *)0xe000e018)
enum { SYSTICK_RUNS = 7 }; /* by the processor's clock, with an interrupt */

/* The interrupts of the board. */
#define INTERRUPT_ENABLE (*(volatile uint32_t *)0xe000e100)
enum { UART_RECEIVED = 1 << 0 };

/* UART 0. */
#define UART_DATA (*(volatile uint32_t *)0x40004000)
#define UART_STATE (*(volatile uint32_t *)0x40004004)
#define UART_CONTROL (*(volatile uint32_t *)0x40004008)
#define UART_INTERRUPT (*(volatile uint32_t *)0x4000400c)
#define UART_DIVIDER (*(volatile uint32_t *)0x40004010)
enum { UART_FULL = 1 << 0, UART_HAS_BYTE = 1 << 1 };
enum { UART_SENDS_AND_RECEIVES = 3, UART_INTERRUPTS_AT_BYTE = 1 << 3, UART_BYTE_CAME = 1 << 1 };

static volatile uint32_t milliseconds;

/*
 * What came. The handler alone writes `came`, and the main loop alone writes `taken`, so a load and a store are enough,
 * which each Cortex-M has. What comes while the ring is full is lost: the sender of that packet repeats it.
 */
#ifndef RING_BYTES
#define RING_BYTES 256
#endif
enum { RING = RING_BYTES };
static volatile uint8_t ring[RING];
static volatile uint32_t came, taken;

void on_tick(void) { milliseconds = milliseconds + 1; }

/* The interrupt is cleared before the bytes are taken, so one that comes meanwhile sets it again. */
void on_uart_received(void) {
    UART_INTERRUPT = UART_BYTE_CAME;
    while (UART_STATE & UART_HAS_BYTE) {
        uint8_t byte = (uint8_t)UART_DATA;
        if (came - taken == RING) continue;
        ring[came % RING] = byte;
        came = came + 1;
    }
}

void board_start(void) {
    SYSTICK_RELOAD = PROCESSOR_HZ / TICK_HZ - 1;
    SYSTICK_VALUE = 0;
    SYSTICK_CONTROL = SYSTICK_RUNS;
    UART_DIVIDER = PROCESSOR_HZ / BAUD;
    UART_CONTROL = UART_SENDS_AND_RECEIVES | UART_INTERRUPTS_AT_BYTE;
    INTERRUPT_ENABLE = UART_RECEIVED;
}

uint32_t ticks(void) { return milliseconds; }

bool serial_take(uint8_t *byte) {
    if (taken == came) return false;
    *byte = ring[taken % RING];
    taken = taken + 1;
    return true;
}

void serial_send(const uint8_t *bytes, size_t length) {
    for (size_t i = 0; i < length; i++) {
        while (UART_STATE & UART_FULL) continue;
        UART_DATA = bytes[i];
    }
}

void wait_for_interrupt(void) { __asm__ volatile("wfi"); }
