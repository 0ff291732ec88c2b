// The flash of qemu's boards `virt`: two chips side by side, mapped into memory.
//
// A sector is the front of one of the chips' blocks, since blocks of these chips are larger.
#include BOARD
#include "chip.h"
#include "node.h"

enum { BLOCK = 0x40000 };

static uintptr_t place_of(uint32_t sector, uint32_t at) { return flash_base + (uintptr_t)sector * BLOCK + at; }

uint32_t board_sectors(void) { return SECTORS; }

int board_read(uint32_t sector, uint32_t at, uint8_t *into, size_t count) {
    chip_read(place_of(sector, at), into, count);
    return 1;
}

int board_program(uint32_t sector, uint32_t at, const uint8_t *bytes, size_t count) {
    return chip_program(place_of(sector, at), bytes, count);
}

int board_erase(uint32_t sector) { return chip_erase(place_of(sector, 0)); }
