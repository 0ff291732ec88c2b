// A driver for serial NOR chips with JEDEC's commands 03, 02, 06, 05, 20 and 9F, which most boards have.
//
//     static struct nor chip = {.exchange = over_my_bus, .most_polls = 100000};
//
//     if (!nor_begin(&chip)) ..                        // no chip answers, or one of another kind
//     uint32_t board_sectors(void) { return chip.sectors; }
//     int board_erase(uint32_t sector) { return nor_erase(&chip, sector * NOR_SECTOR); }
//
// Each call returns whether it succeeded, as far as the chip says: `node.c` reads back what was programmed and erased.
#pragma once
#include <stddef.h>
#include <stdint.h>

enum { NOR_SECTOR = 4096, NOR_PAGE = 256 };

struct nor {
    // ---- What the board provides

    // Selects the chip, sends the bytes of `head`, then sends `count` bytes of `out` or receives them into `in`, and deselects the
    // chip. One of `out` and `in` is NULL, or both if `count` is 0. Returns whether all bytes were exchanged.
    int (*exchange)(void *context, const uint8_t *head, size_t head_count, const uint8_t *out, uint8_t *in, size_t count);
    void *context;
    // How often the status is read before a chip counts as broken. An erase takes up to 400 ms on most chips.
    uint32_t most_polls;

    // ---- What `nor_begin` finds

    // How many sectors of 4,096 bytes the chip has, and how many of them can be used: at most 4,095.
    uint32_t sectors_of_chip, sectors;
    // The command that erases a sector.
    uint8_t erase;
    uint8_t address_bytes;
};

// Waits until the chip is ready, and asks it for its kind and size.
int nor_begin(struct nor *chip);
int nor_read(const struct nor *chip, uint32_t at, uint8_t *into, size_t count);
// Clears the bits that are 0 in `bytes`, page by page.
int nor_program(const struct nor *chip, uint32_t at, const uint8_t *bytes, size_t count);
// Sets all bits of the sector that begins there.
int nor_erase(const struct nor *chip, uint32_t at);
