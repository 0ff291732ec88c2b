// qemu-system-riscv64 and qemu-system-riscv32, -M virt: a 16550, a device that ends the run with a status, a second bank of flash of 128 blocks.
#pragma once
#include <stdint.h>

#include "count_riscv.h"

#ifndef SECTORS
#define SECTORS 128
#endif

static const uintptr_t flash_base = 0x22000000;

// Where the loader of qemu leaves the words.
static const char *const loaded = (const char *)0x80400000;

enum { DATA = 0, INTERRUPTS = 1, WIDTH = 3, STATUS = 5, EIGHT_BITS = 3, TAKEN = 0x01, SENT = 0x20 };

static volatile uint8_t *const port = (volatile uint8_t *)0x10000000;

// Its queue of bytes stays off: switching it on would lose what has come.
static inline void port_begin(void) {
    port[INTERRUPTS] = 0;
    port[WIDTH] = EIGHT_BITS;
}

static inline int port_has_byte(void) { return port[STATUS] & TAKEN; }
static inline int port_has_room(void) { return port[STATUS] & SENT; }
static inline uint8_t port_take(void) { return port[DATA]; }
static inline void port_put(uint8_t byte) { port[DATA] = byte; }

static inline void power_off(int status) {
    volatile uint32_t *end = (volatile uint32_t *)0x100000;
    *end = status ? (uint32_t)status << 16 | 0x3333 : 0x5555;
    for (;;) {}
}
