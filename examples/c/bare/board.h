/*
 * The board: what the firmware needs of a processor of the Cortex-M family and of its board. Another board needs
 * another board.c, and the places of its memory in cortex_m.ld.
 */
#ifndef BOARD_H
#define BOARD_H
#include <stdbool.h>
#include <stddef.h>
#include <stdint.h>

/* Starts the tick and the serial line. */
void board_start(void);

/* Milliseconds since the start. It goes back after 49 days. */
uint32_t ticks(void);

/* Takes the next byte that came on the serial line. False where there is none. */
bool serial_take(uint8_t *byte);

/* Sends bytes on the serial line, and waits until they are gone. */
void serial_send(const uint8_t *bytes, size_t length);

/* Waits for the next interrupt. */
void wait_for_interrupt(void);

#endif
