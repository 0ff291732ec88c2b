// A driver for flash chips with Intel's command set (CFI).
#include "chip.h"

// Each command and each bit of the status, for both chips.
enum {
    READ_ARRAY = 0x00ff00ff,
    CLEAR_STATUS = 0x00500050,
    PROGRAM = 0x00400040,
    ERASE = 0x00200020,
    CONFIRM = 0x00d000d0,
    READY = 0x00800080,
    // a failed erase or program, a low voltage, a locked block
    FAILED = 0x003a003a,
};

// How often a status is read before a chip counts as broken.
#ifndef MOST_POLLS
#define MOST_POLLS (1u << 28)
#endif

// ---- The bus: memory, or what BUS names

#ifdef BUS
#include BUS
#else
static uint8_t bus_get_byte(uintptr_t at) { return *(volatile uint8_t *)at; }
static uint32_t bus_get(uintptr_t at) { return *(volatile uint32_t *)at; }
static void bus_put(uintptr_t at, uint32_t word) { *(volatile uint32_t *)at = word; }
#endif

static uintptr_t word_at(uintptr_t at) { return at & ~(uintptr_t)3; }

// ---- Commands

void chip_read(uintptr_t at, uint8_t *into, size_t count) {
    for (; count && at & 3; at++, count--) *into++ = bus_get_byte(at);
    for (; count >= 4; at += 4, count -= 4, into += 4) {
        uint32_t word = bus_get(at);
        into[0] = (uint8_t)word;
        into[1] = (uint8_t)(word >> 8);
        into[2] = (uint8_t)(word >> 16);
        into[3] = (uint8_t)(word >> 24);
    }
    for (; count; at++, count--) *into++ = bus_get_byte(at);
}

// Waits until the chips are done, and switches them back to reading. Returns whether they succeeded.
static int is_done(uintptr_t word) {
    for (uint32_t tries = 0; tries < MOST_POLLS; tries++) {
        uint32_t status = bus_get(word);
        if ((status & READY) != READY) continue;
        bus_put(word, CLEAR_STATUS);
        bus_put(word, READ_ARRAY);
        return (status & FAILED) == 0;
    }
    return 0;
}

static int program_word(uintptr_t word, uint32_t bits) {
    uint32_t standing = bus_get(word);
    if ((standing & bits) == standing) return 1;
    bus_put(word, PROGRAM);
    bus_put(word, standing & bits);
    return is_done(word);
}

int chip_program(uintptr_t at, const uint8_t *bytes, size_t count) {
    while (count) {
        uintptr_t word = word_at(at);
        uint32_t bits = 0xffffffff;
        do {
            uint32_t shift = 8 * (at & 3);
            bits &= ~((uint32_t)(uint8_t)~*bytes++ << shift);
            at++, count--;
        } while (count && at & 3);
        if (!program_word(word, bits)) return 0;
    }
    return 1;
}

int chip_erase(uintptr_t at) {
    uintptr_t word = word_at(at);
    bus_put(word, ERASE);
    bus_put(word, CONFIRM);
    return is_done(word);
}
