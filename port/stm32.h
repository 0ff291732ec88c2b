// qemu-system-arm -M netduinoplus2 (STM32F405, a Cortex-M4) and -M netduino2 (STM32F205, a Cortex-M3): USART1, TIM2, and
// semihosting, by which the board reaches its flash on the host and ends.
#pragma once
#include <stdint.h>

// Where qemu's loader puts the arguments: in the last 4 KiB of the processor's own flash.
static const char *const loaded = (const char *)0x080ff000;

enum { STATUS = 0, DATA = 1, CONTROL = 3, TAKEN = 0x20, SENT = 0x80, ON = 0x200c };

static volatile uint32_t *const port = (volatile uint32_t *)0x40011000;

enum { HOST_OPEN = 1, HOST_CLOSE = 2, HOST_WRITE = 5, HOST_READ = 6, HOST_SEEK = 10, HOST_LENGTH = 12, HOST_END = 0x20 };
enum { TO_READ_AND_WRITE = 3 };

static inline uint32_t ask_host(uint32_t what, const void *with) {
    register uint32_t call __asm__("r0") = what;
    register const void *words __asm__("r1") = with;
    __asm__ volatile("bkpt #0xab" : "+r"(call) : "r"(words) : "memory");
    return call;
}

static inline uint32_t open_on_host(const char *name, uint32_t length) {
    const uint32_t words[3] = {(uint32_t)name, TO_READ_AND_WRITE, length};
    return ask_host(HOST_OPEN, words);
}

// Until its port is on, a board of qemu loses what arrives: it writes to file 8 of the host when the host may send.
static inline void port_begin(void) {
    static const char name[] = "/dev/fd/8";
    port[CONTROL] = ON;
    const uint32_t file = open_on_host(name, sizeof name - 1);
    const uint32_t word[3] = {file, (uint32_t)name, 1};
    ask_host(HOST_WRITE, word);
    ask_host(HOST_CLOSE, &file);
}

static inline int port_has_byte(void) { return (port[STATUS] & TAKEN) != 0; }
static inline int port_has_room(void) { return (port[STATUS] & SENT) != 0; }
static inline uint8_t port_take(void) { return (uint8_t)port[DATA]; }
static inline void port_put(uint8_t byte) { port[DATA] = byte; }

static inline void power_off(int status) {
    // that it exited, and with which status
    const uint32_t reason[2] = {0x20026, (uint32_t)status};
    for (;;) ask_host(HOST_END, reason);
}

enum { TIMER_CONTROL = 0, TIMER_EVENT = 5, TIMER_COUNT = 9, TIMER_SCALE = 10, TIMER_END = 11 };

static volatile uint32_t *const timer = (volatile uint32_t *)0x40000000;

// A tick of qemu's timer is a nanosecond, which is an instruction where qemu counts with -icount shift=0.
static inline void count_instructions(void) {
    timer[TIMER_END] = 0xffffffff;
    timer[TIMER_SCALE] = 0;
    timer[TIMER_EVENT] = 1;
    timer[TIMER_CONTROL] = 1;
}

static inline uint64_t instructions(void) {
    static uint32_t last;
    static uint64_t counted;
    const uint32_t now = timer[TIMER_COUNT];
    counted += now - last;
    last = now;
    return counted;
}
