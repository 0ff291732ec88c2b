/* The logger's board on a computer: `logger CHIP`. The serial line is standard input and output, and the flash a file of 128
 * sectors, which is made where it is not there. The power goes when the input ends, or by `kill -9`. */
#define _POSIX_C_SOURCE 200809L
#include "board.h"
#include <fcntl.h>
#include <poll.h>
#include <stdio.h>
#include <stdlib.h>
#include <string.h>
#include <time.h>
#include <unistd.h>

enum { SECTOR = 4096, SECTORS = 128, PAGE = 256 };

static int chip;

static off_t place_of(uint32_t sector, uint32_t at) { return (off_t)sector * SECTOR + at; }

uint32_t board_sectors(void) { return SECTORS; }

int board_read(uint32_t sector, uint32_t at, uint8_t *into, size_t count) {
    return pread(chip, into, count, place_of(sector, at)) == (ssize_t)count;
}

static int put(uint32_t sector, uint32_t at, const uint8_t *bytes, size_t count) {
    return pwrite(chip, bytes, count, place_of(sector, at)) == (ssize_t)count;
}

int board_program(uint32_t sector, uint32_t at, const uint8_t *bytes, size_t count) {
    uint8_t page[PAGE];
    if (count > sizeof page || !board_read(sector, at, page, count)) return 0;
    for (size_t place = 0; place < count; place++) page[place] &= bytes[place];
    return put(sector, at, page, count);
}

int board_erase(uint32_t sector) {
    uint8_t erased[SECTOR];
    memset(erased, 0xff, sizeof erased);
    return put(sector, 0, erased, sizeof erased);
}

void board_put(uint8_t byte) {
    putchar(byte);
    if (byte == '\n') fflush(stdout);
}

int board_take_now(void) {
    struct pollfd line = {STDIN_FILENO, POLLIN, 0};
    uint8_t byte;
    if (poll(&line, 1, 1) <= 0) return NONE_CAME;
    if (read(STDIN_FILENO, &byte, 1) != 1) exit(0);
    return byte;
}

uint32_t board_milliseconds(void) {
    struct timespec now;
    clock_gettime(CLOCK_MONOTONIC, &now);
    return (uint32_t)((uint64_t)now.tv_sec * 1000 + (uint64_t)now.tv_nsec / 1000000);
}

int main(int words, char **word) {
    chip = words == 2 ? open(word[1], O_RDWR | O_CREAT, 0666) : -1;
    if (chip < 0) return fprintf(stderr, "usage: logger CHIP\n"), 100;
    off_t length = lseek(chip, 0, SEEK_END);
    if (length != 0 && length != SECTORS * SECTOR) return fprintf(stderr, "%s is no chip of %d sectors\n", word[1], SECTORS), 100;
    for (uint32_t sector = 0; length == 0 && sector < SECTORS; sector++)
        if (!board_erase(sector)) return fprintf(stderr, "%s cannot be written\n", word[1]), 100;
    return logger();
}
