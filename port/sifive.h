// qemu-system-riscv64 and qemu-system-riscv32, -M sifive_u: UART0, QSPI0 with a chip is25wp256, and semihosting for the end.
#pragma once
#include <stdint.h>

#include "count_riscv.h"

// How many sectors of the chip are used.
#ifndef SECTORS
#define SECTORS 128
#endif

// Where qemu's loader puts the arguments.
static const char *const loaded = (const char *)0x80400000;

enum { SENT = 0, TAKEN = 1, SENDS = 2, TAKES = 3, ON = 1 };

static volatile uint32_t *const port = (volatile uint32_t *)0x10010000;

static inline void port_begin(void) {
    port[SENDS] = ON;
    port[TAKES] = ON;
}

// Reading a byte removes it from the port: it is kept until it is needed, with a bit above it as a mark.
enum { IS_KEPT = 0x100 };

static inline uint32_t *kept_byte(void) {
    static uint32_t kept;
    return &kept;
}

static inline int port_has_byte(void) {
    if (*kept_byte()) return 1;
    const uint32_t taken = port[TAKEN];
    if (!(taken >> 31)) *kept_byte() = (uint8_t)taken | IS_KEPT;
    return *kept_byte() != 0;
}

static inline uint8_t port_take(void) {
    const uint8_t byte = (uint8_t)*kept_byte();
    *kept_byte() = 0;
    return byte;
}

static inline int port_has_room(void) { return !(port[SENT] >> 31); }
static inline void port_put(uint8_t byte) { port[SENT] = byte; }

// qemu writes the chip's file in the background, and loses what is not written when the run ends: it gets half a second.
static inline void wait_for_chip(void) {
    volatile uint32_t *const microseconds = (volatile uint32_t *)0x0200bff8;
    const uint32_t begin = *microseconds;
    while (*microseconds - begin < 500000) {}
}

static inline void power_off(int status) {
    wait_for_chip();
    // the call that ends the program, with the reason that it exited; on 32 bits the variant that takes a status
    volatile uintptr_t reason[2] = {0x20026, (uintptr_t)status};
    register uintptr_t call __asm__("a0") = sizeof call == 8 ? 0x18 : 0x20;
    register volatile uintptr_t *with __asm__("a1") = reason;
    for (;;)
        __asm__ volatile(".option push\n\t.option norvc\n\tslli x0, x0, 0x1f\n\tebreak\n\tsrai x0, x0, 7\n\t.option pop"
                         : "+r"(call)
                         : "r"(with)
                         : "memory");
}
