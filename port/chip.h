// A driver for memory-mapped flash chips with Intel's command set (CFI): two chips of 16 bits side by side, so that each access
// has 32 bits.
#pragma once
#include <stddef.h>
#include <stdint.h>

void chip_read(uintptr_t at, uint8_t *into, size_t count);
int chip_program(uintptr_t at, const uint8_t *bytes, size_t count);
int chip_erase(uintptr_t at);
