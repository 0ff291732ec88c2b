// The instructions that a RISC-V processor has done.
#pragma once
#include <stdint.h>

static inline void count_instructions(void) {}

static inline uint64_t instructions(void) {
#if __riscv_xlen == 64
    uint64_t count;
    __asm__ volatile("csrr %0, minstret" : "=r"(count));
    return count;
#else
    uint32_t high, low, again;
    do __asm__ volatile("csrr %0, minstreth\n\tcsrr %1, minstret\n\tcsrr %2, minstreth" : "=r"(high), "=r"(low), "=r"(again));
    while (high != again);
    return (uint64_t)high << 32 | low;
#endif
}
