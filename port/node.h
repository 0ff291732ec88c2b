// The interface between the program and a board. node.c has the system calls of the program; a board provides these functions.
#pragma once
#include <stddef.h>
#include <stdint.h>

// The proved program: carries out one command line, and returns its status. Call it once after each start.
int main(void);

// ---- What a board provides

// The arguments after the program's name, as for `antelope`: "run", any word for the image, "-". NULL after the last one.
const char *board_word(size_t place);

// Waits for the next byte of the line.
int board_take(void);
void board_put(uint8_t byte);

// A NOR flash of 4 to 4,095 sectors of 4,096 bytes, each erased alone. Bytes are as the chip has them: an erased one is ff.
uint32_t board_sectors(void);
// Returns whether the bytes were read.
int board_read(uint32_t sector, uint32_t at, uint8_t *into, size_t count);
// Clears the bits that are 0 in `bytes`, byte by byte in rising order, and never sets one. Returns whether the chip reported success.
int board_program(uint32_t sector, uint32_t at, const uint8_t *bytes, size_t count);
// Sets all bits of a sector. Returns whether the chip reported success.
int board_erase(uint32_t sector);
