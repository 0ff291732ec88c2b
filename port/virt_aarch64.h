// qemu-system-aarch64 -M virt: a PL011, semihosting to end with a status, a second bank of flash of 256 blocks.
#pragma once
#include <stdint.h>

#ifndef SECTORS
#define SECTORS 256
#endif

static const uintptr_t flash_base = 0x04000000;

// Where the loader of qemu leaves the words.
static const char *const loaded = (const char *)0x40600000;

enum { DATA = 0, FLAGS = 6, WIDTH = 11, CONTROL = 12, TAKEN_EMPTY = 0x10, SENT_FULL = 0x20, EIGHT_BITS = 0x60, ON = 0x301 };

static volatile uint32_t *const port = (volatile uint32_t *)0x09000000;

// Its queue of bytes stays off: switching it on would lose what has come.
static inline void port_begin(void) {
    port[CONTROL] = 0;
    port[WIDTH] = EIGHT_BITS;
    port[CONTROL] = ON;
}

static inline int port_has_byte(void) { return !(port[FLAGS] & TAKEN_EMPTY); }
static inline int port_has_room(void) { return !(port[FLAGS] & SENT_FULL); }
static inline uint8_t port_take(void) { return (uint8_t)port[DATA]; }
static inline void port_put(uint8_t byte) { port[DATA] = byte; }

static inline void power_off(int status) {
    // the call that ends the program, with the reason that it ended by itself
    volatile uint64_t reason[2] = {0x20026, (uint64_t)status};
    register uint64_t call __asm__("x0") = 0x18;
    register volatile uint64_t *with __asm__("x1") = reason;
    for (;;) __asm__ volatile("hlt #0xf000" ::"r"(call), "r"(with) : "memory");
}

static inline void count_instructions(void) {
    // on, and counting in 64 bits
    __asm__ volatile("msr pmcr_el0, %0\n\tmsr pmcntenset_el0, %1\n\tisb" ::"r"(0x45ull), "r"(1ull << 31));
}

// The cycles, which are the instructions where qemu counts with -icount shift=0.
static inline uint64_t instructions(void) {
    uint64_t count;
    __asm__ volatile("isb\n\tmrs %0, pmccntr_el0" : "=r"(count));
    return count;
}
