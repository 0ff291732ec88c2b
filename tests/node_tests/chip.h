/* A flash chip in memory for the tests, behind the callbacks of sorachest_node.h. */
#pragma once
#include "sorachest_node.h"
#include <stdint.h>

struct chip {
    uint8_t *bytes;
    uint32_t sectors;
    long reads, bytes_read, programs, erases;
    long fails_at;       /* the program or erase of this number fails, as all after it; 0: none does */
    int tears;           /* a program that fails leaves a front part, and an erase too */
    int reads_fail;      /* every read fails */
    int erases_idle;     /* an erase says that it is done, and does nothing */
    int flips;           /* each program leaves a bit that was not asked for */
    void (*within)(struct chip *chip); /* what is called within each read, if anything */
    void *of_test;
};

/* A config over an erased chip and memory, both from the heap, and with a thread under THREADS. */
struct sorachest_config *new_config(uint32_t sectors);
void drop_config(struct sorachest_config *config);
struct chip *chip_of(const struct sorachest_config *config);
