// The flash of qemu's board `sifive_u`: a serial chip on QSPI0, driven by nor.c.
#include BOARD
#include "node.h"
#include "nor.h"

enum { CHIP_MODE = 6, SEND = 18, TAKE = 19, MAPPED = 24, SELECTED = 2 };

static volatile uint32_t *const bus = (volatile uint32_t *)0x10040000;

static uint8_t swap(uint8_t byte) {
    uint32_t taken;
    bus[SEND] = byte;
    do taken = bus[TAKE];
    while (taken >> 31);
    return (uint8_t)taken;
}

static int exchange(void *context, const uint8_t *head, size_t head_count, const uint8_t *out, uint8_t *in, size_t count) {
    (void)context;
    bus[CHIP_MODE] = SELECTED;
    while (head_count--) swap(*head++);
    for (size_t place = 0; place < count; place++) {
        const uint8_t byte = swap(out ? out[place] : 0);
        if (in) in[place] = byte;
    }
    bus[CHIP_MODE] = 0;
    return 1;
}

static struct nor chip;

// A chip that does not answer has no sectors, so the status is 10.
uint32_t board_sectors(void) {
    if (!chip.exchange) {
        bus[MAPPED] = 0;
        chip.exchange = exchange;
        chip.most_polls = 1000000;
        nor_begin(&chip);
    }
    return chip.sectors < SECTORS ? chip.sectors : SECTORS;
}

int board_read(uint32_t sector, uint32_t at, uint8_t *into, size_t count) {
    return nor_read(&chip, sector * NOR_SECTOR + at, into, count);
}

int board_program(uint32_t sector, uint32_t at, const uint8_t *bytes, size_t count) {
    return nor_program(&chip, sector * NOR_SECTOR + at, bytes, count);
}

int board_erase(uint32_t sector) { return nor_erase(&chip, sector * NOR_SECTOR); }
