/* What the logger asks of a board. */
#pragma once
#include <stddef.h>
#include <stdint.h>

/* Since power on; after the largest number it starts again at 0. */
uint32_t board_milliseconds(void);

/* The next byte of the serial line, or that none has come. It does not wait. */
enum { NONE_CAME = -1 };
int board_take_now(void);
void board_put(uint8_t byte);

/* A NOR flash of 4 to 4,095 sectors of 4,096 bytes, as port/node.h has it. Each answers whether it was done. */
uint32_t board_sectors(void);
int board_read(uint32_t sector, uint32_t at, uint8_t *into, size_t count);
int board_program(uint32_t sector, uint32_t at, const uint8_t *bytes, size_t count);
int board_erase(uint32_t sector);

/* What the firmware does from power on. It comes back only where the flash is not to be used. */
int logger(void);
