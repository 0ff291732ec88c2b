// Figures of a run: its instructions, without those spent waiting for the line, and its use of the stack and the heap. The
// linker replaces calls of node.c by those with `__wrap_`.
#include "measure.h"
#include "calls.h"
#include "node.h"

static const uint64_t paint = 0xa5a5a5a5a5a5a5a5;

// of the linker: the stack's ends
extern uint64_t stack_low[], stack_high[];
// of node.c
extern size_t heap_most;

int64_t __real_read(int file, uint8_t *into, usize count);
int64_t __real_write(int file, const uint8_t *from, usize count);

static uint64_t (*counter)(void);
static uint64_t counted, since;

static void stop(void) { counted += counter() - since; }
static void go_on(void) { since = counter(); }

int64_t __wrap_read(int file, uint8_t *into, usize count) {
    stop();
    int64_t answer = __real_read(file, into, count);
    go_on();
    return answer;
}

int64_t __wrap_write(int file, const uint8_t *from, usize count) {
    stop();
    int64_t answer = __real_write(file, from, count);
    go_on();
    return answer;
}

void measure_begin(uint64_t (*instructions)(void)) {
    uint64_t *here = __builtin_frame_address(0);
    // this call's own frame is left alone
    for (volatile uint64_t *word = stack_low; word < here - 32; word++) *word = paint;
    counter = instructions;
    go_on();
}

static uint64_t stack_used(void) {
    const volatile uint64_t *word = stack_low;
    while (word < stack_high && *word == paint) word++;
    return (uint64_t)((const volatile uint8_t *)stack_high - (const volatile uint8_t *)word);
}

static void tell(void (*put)(uint8_t), const char *name, uint64_t number) {
    uint8_t digits[20];
    int count = 0;
    do digits[count++] = (uint8_t)('0' + number % 10);
    while (number /= 10);
    while (*name) put((uint8_t)*name++);
    while (count) put(digits[--count]);
}

void measure_end(void (*put)(uint8_t)) {
    stop();
    tell(put, "-- instructions ", counted);
    tell(put, " stack ", stack_used());
    tell(put, " heap ", heap_most);
    put('\n');
}
