// Serial NOR chips with JEDEC's commands.
#include "nor.h"

enum {
    PROGRAM = 0x02,
    READ = 0x03,
    READ_STATUS = 0x05,
    ENABLE_WRITE = 0x06,
    ERASE_SECTOR = 0x20,
    READ_PARAMETERS = 0x5a,
    READ_NUMBERS = 0x9f,
    // bits of the status
    IS_BUSY = 1,
    MAY_WRITE = 2,
    // the program uses 4 to 4,095 sectors
    LEAST_SECTORS = 4,
    MOST_SECTORS = 4095,
};

// ---- Commands

static int send(const struct nor *chip, uint8_t command) { return chip->exchange(chip->context, &command, 1, NULL, NULL, 0); }

static int answer(const struct nor *chip, uint8_t command, uint8_t *into, size_t count) {
    return chip->exchange(chip->context, &command, 1, NULL, into, count);
}

// A command followed by an address: the bytes of both.
static size_t head_of(const struct nor *chip, uint8_t command, uint32_t at, uint8_t head[5]) {
    size_t count = 0;
    head[count++] = command;
    for (int shift = 8 * (chip->address_bytes - 1); shift >= 0; shift -= 8) head[count++] = (uint8_t)(at >> shift);
    return count;
}

static int is_ready(const struct nor *chip) {
    for (uint32_t polls = 0; polls < chip->most_polls; polls++) {
        uint8_t status;
        if (!answer(chip, READ_STATUS, &status, 1)) return 0;
        if (!(status & IS_BUSY)) return 1;
    }
    return 0;
}

// Each program and each erase must be enabled first; afterwards the chip disables them again. A protected chip does not enable them.
static int may_write(const struct nor *chip) {
    uint8_t status;
    if (!send(chip, ENABLE_WRITE) || !answer(chip, READ_STATUS, &status, 1)) return 0;
    return (status & (IS_BUSY | MAY_WRITE)) == MAY_WRITE;
}

// ---- What a chip is

static uint32_t word_of(const uint8_t bytes[4]) {
    return bytes[0] | (uint32_t)bytes[1] << 8 | (uint32_t)bytes[2] << 16 | (uint32_t)bytes[3] << 24;
}

static int read_parameters(const struct nor *chip, uint32_t at, uint8_t *into, size_t count) {
    const uint8_t head[5] = {READ_PARAMETERS, (uint8_t)(at >> 16), (uint8_t)(at >> 8), (uint8_t)at, 0};
    return chip->exchange(chip->context, head, sizeof head, NULL, into, count);
}

// The sectors by the second word of a chip's parameters: its size in bits minus 1, or as a power of two.
static uint32_t sectors_told(uint32_t density) {
    uint64_t bits = (uint64_t)density + 1;
    if (density >> 31) {
        density &= 0x7fffffff;
        bits = density < 48 ? (uint64_t)1 << density : 0;
    }
    return (uint32_t)(bits / 8 / NOR_SECTOR);
}

// Reads the parameters of JEDEC's standard 216 (SFDP). Returns whether the chip has them, and can be used.
static int takes_parameters(struct nor *chip, int *is_told) {
    uint8_t head[16], words[8];
    if (!read_parameters(chip, 0, head, sizeof head)) return 0;
    // "SFDP", followed by the header of the basic table, which has number 0: its length in words, and its place
    *is_told = word_of(head) == 0x50444653 && head[8] == 0 && head[11] >= 2;
    if (!*is_told) return 1;
    if (!read_parameters(chip, word_of(head + 12) & 0xffffff, words, sizeof words)) return 0;
    const uint32_t first = word_of(words);
    if ((first & 3) != 1) return 0; // no command erases sectors of 4 KiB
    chip->erase = (uint8_t)(first >> 8);
    chip->address_bytes = (first >> 17 & 3) == 2 ? 4 : 3;
    chip->sectors_of_chip = sectors_told(word_of(words + 4));
    return 1;
}

int nor_begin(struct nor *chip) {
    uint8_t numbers[3];
    int is_told;
    chip->erase = ERASE_SECTOR;
    chip->address_bytes = 3;
    chip->sectors_of_chip = chip->sectors = 0;
    if (!is_ready(chip) || !answer(chip, READ_NUMBERS, numbers, sizeof numbers)) return 0;
    // without a chip the line stays at 0 or at 1
    if (numbers[0] == 0 || numbers[0] == 0xff) return 0;
    if (!takes_parameters(chip, &is_told)) return 0;
    // on most chips the third number is the size in bytes as a power of two
    if (!is_told && numbers[2] >= 14 && numbers[2] <= 31) chip->sectors_of_chip = ((uint32_t)1 << numbers[2]) / NOR_SECTOR;
    if (chip->sectors_of_chip < LEAST_SECTORS) return 0;
    chip->sectors = chip->sectors_of_chip < MOST_SECTORS ? chip->sectors_of_chip : MOST_SECTORS;
    return 1;
}

// ---- Its array

static int is_within(const struct nor *chip, uint32_t at, size_t count) {
    const uint32_t size = chip->sectors * NOR_SECTOR;
    return count <= size && at <= size - count;
}

int nor_read(const struct nor *chip, uint32_t at, uint8_t *into, size_t count) {
    uint8_t head[5];
    if (!is_within(chip, at, count)) return 0;
    const size_t head_count = head_of(chip, READ, at, head);
    return count == 0 || chip->exchange(chip->context, head, head_count, NULL, into, count);
}

// Bytes beyond the end of a page would be written to its beginning.
int nor_program(const struct nor *chip, uint32_t at, const uint8_t *bytes, size_t count) {
    if (!is_within(chip, at, count)) return 0;
    while (count) {
        uint8_t head[5];
        const size_t to_end = NOR_PAGE - at % NOR_PAGE, many = count < to_end ? count : to_end;
        if (!may_write(chip)) return 0;
        const size_t head_count = head_of(chip, PROGRAM, at, head);
        if (!chip->exchange(chip->context, head, head_count, bytes, NULL, many) || !is_ready(chip)) return 0;
        at += (uint32_t)many, bytes += many, count -= many;
    }
    return 1;
}

int nor_erase(const struct nor *chip, uint32_t at) {
    uint8_t head[5];
    if (at % NOR_SECTOR || !is_within(chip, at, NOR_SECTOR) || !may_write(chip)) return 0;
    const size_t head_count = head_of(chip, chip->erase, at, head);
    return chip->exchange(chip->context, head, head_count, NULL, NULL, 0) && is_ready(chip);
}
