/* What a Cortex-M does first: it loads the stack pointer from the first vector, and goes to the second. */
#include <stddef.h>
#include <stdint.h>

/* Places that the linker script names. */
extern uint32_t stack_top[], data_start[], data_end[], data_in_flash[], bss_start[], bss_end[];

int main(void);
void on_tick(void);
void on_uart_received(void);

void reset(void) {
    const uint32_t *from = data_in_flash;
    for (uint32_t *at = data_start; at < data_end; at++) *at = *from++;
    for (uint32_t *at = bss_start; at < bss_end; at++) *at = 0;
    main();
    for (;;) continue;
}

/* A fault. The stack lies below all data, so one that grows too large ends here, and has overwritten nothing. */
static void fault(void) {
    for (;;) continue;
}

/* The first sixteen are those of each Cortex-M; then come those of the board. */
enum { PROCESSOR_VECTORS = 16, BOARD_VECTORS = 32, HARD_FAULT = 3, TICK = 15, UART_RECEIVED = 16 };

typedef void (*vector)(void);

__attribute__((section(".vectors"), used)) static const struct {
    uint32_t *stack;
    vector vectors[PROCESSOR_VECTORS + BOARD_VECTORS - 1];
} table = {
    stack_top,
    {
        reset,
        fault, /* not maskable */
        fault, fault, fault, fault,
        [TICK - 1] = on_tick,
        [UART_RECEIVED - 1] = on_uart_received,
    },
};
