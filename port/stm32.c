// The flash of qemu's boards with an STM32: file 9 of the host, with sectors of 4,096 bytes as a serial NOR chip has. `nor.c` is
// the driver of such a chip.
#include BOARD
#include "node.h"

enum { SECTOR = 4096, PAGE = 256 };

static uint32_t chip(void) {
    static const char name[] = "/dev/fd/9";
    static uint32_t file;
    if (!file) file = open_on_host(name, sizeof name - 1);
    return file;
}

static void seek(uint32_t sector, uint32_t at) {
    const uint32_t words[2] = {chip(), sector * SECTOR + at};
    ask_host(HOST_SEEK, words);
}

uint32_t board_sectors(void) {
    const uint32_t file = chip();
    return ask_host(HOST_LENGTH, &file) / SECTOR;
}

int board_read(uint32_t sector, uint32_t at, uint8_t *into, size_t count) {
    const uint32_t words[3] = {chip(), (uint32_t)into, count};
    seek(sector, at);
    return ask_host(HOST_READ, words) == 0;
}

static int is_put(uint32_t sector, uint32_t at, const uint8_t *bytes, size_t count) {
    const uint32_t words[3] = {chip(), (uint32_t)bytes, count};
    seek(sector, at);
    return ask_host(HOST_WRITE, words) == 0;
}

// Two bytes at an even place are written at once, and all others one by one, so that a power cut leaves what it would leave on
// a chip.
int board_program(uint32_t sector, uint32_t at, const uint8_t *bytes, size_t count) {
    uint8_t page[PAGE];
    if (!board_read(sector, at, page, count)) return 0;
    for (size_t place = 0; place < count; place++) page[place] &= bytes[place];
    for (size_t place = 0, many; place < count; place += many) {
        many = (at + place) % 2 == 0 && place + 1 < count ? 2 : 1;
        if (!is_put(sector, at + (uint32_t)place, page + place, many)) return 0;
    }
    return 1;
}

int board_erase(uint32_t sector) {
    uint8_t page[PAGE];
    for (size_t place = 0; place < PAGE; place++) page[place] = 0xff;
    for (uint32_t at = 0; at < SECTOR; at += PAGE)
        if (!is_put(sector, at, page, PAGE)) return 0;
    return 1;
}
