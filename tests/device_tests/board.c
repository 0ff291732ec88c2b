// A board in memory, on which node.c is tried alone.
#include "../../port/node.h"

enum { SECTORS = 4, SECTOR = 4096 };

// What a chip does that is not well: nothing, and says so of an erase alone; a half, and says so; nothing, and never says so; or it cannot be
// read.
enum { WELL, IDLE, HALF, LIES, MUTE };

uint8_t chip[SECTORS * SECTOR];
int chip_is;
const char *form;
int next_byte;
uint8_t sent;

const char *board_word(size_t place) { return place == 0 ? form : NULL; }
int board_take(void) { return next_byte; }
void board_put(uint8_t byte) { sent = byte; }
uint32_t board_sectors(void) { return SECTORS; }

int board_read(uint32_t sector, uint32_t at, uint8_t *into, size_t count) {
    if (chip_is == MUTE) return 0;
    for (size_t place = 0; place < count; place++) into[place] = chip[sector * SECTOR + at + place];
    return 1;
}

int board_program(uint32_t sector, uint32_t at, const uint8_t *bytes, size_t count) {
    size_t done = chip_is == WELL ? count : chip_is == HALF ? count / 2 : 0;
    for (size_t place = 0; place < done; place++) chip[sector * SECTOR + at + place] &= bytes[place];
    return chip_is != HALF;
}

int board_erase(uint32_t sector) {
    if (chip_is != WELL) return chip_is == LIES;
    for (size_t place = 0; place < SECTOR; place++) chip[sector * SECTOR + place] = 0xff;
    return 1;
}
