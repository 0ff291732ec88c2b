// Counts what a program does to a flash, whose image is the one file that it writes at places, and leaves the counts in the
// file that COUNTS names when the program ends:
//   8 bytes each: the replies; the programs; the bytes that these programmed
//   8 bytes for each reply: 4 of the erases, and 4 of the programs, since the one before
//   4 bytes for each of 4,096 sectors: its erases
// A write of zeros over a whole sector is an erase, and any other one a program. It is loaded before the C library, and makes
// each call as it is.
#define _GNU_SOURCE
#include <dlfcn.h>
#include <stdint.h>
#include <stdio.h>
#include <stdlib.h>
#include <string.h>
#include <unistd.h>

enum { SECTOR = 4096, SECTORS = 4096, REPLIES = 1 << 20 };

static uint64_t replies, programs, programmed;
static uint32_t since[REPLIES + 1][2], erases[SECTORS];

ssize_t pwrite(int file, const void *from, size_t count, off_t at) {
    static ssize_t (*below)(int, const void *, size_t, off_t);
    static const char erased[SECTOR];
    if (!below) below = (__typeof__(below))dlsym(RTLD_NEXT, "pwrite");
    if (count == SECTOR && at % SECTOR == 0 && !memcmp(from, erased, SECTOR)) {
        erases[at / SECTOR]++, since[replies][0]++;
    } else {
        programs++, programmed += count, since[replies][1]++;
    }
    return below(file, from, count, at);
}

ssize_t write(int file, const void *from, size_t count) {
    static ssize_t (*below)(int, const void *, size_t);
    if (!below) below = (__typeof__(below))dlsym(RTLD_NEXT, "write");
    if (file == STDOUT_FILENO && replies++ == REPLIES) abort();
    return below(file, from, count);
}

__attribute__((destructor)) static void leave_counts(void) {
    uint64_t sums[3] = {replies, programs, programmed};
    FILE *counts = fopen(getenv("COUNTS"), "wb");
    if (!counts || fwrite(sums, sizeof sums, 1, counts) != 1 || fwrite(since, 8, replies, counts) != replies
        || fwrite(erases, sizeof erases, 1, counts) != 1 || fclose(counts)) abort();
}
