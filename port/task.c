// The database as a task of a firmware that has other work to do.
#include "task.h"
#include "node.h"

// As large as the program needs: README.md has the figures.
#ifndef TASK_STACK
#define TASK_STACK (56 * 1024)
#endif

enum { NO_BYTE = -1 };

// In switch_*.S: saves this stack in `kept`, and continues on another one that was saved in this way.
extern void switch_stack(void **kept, void *other);
// A fresh stack, as `switch_stack` saves one: continuing on it calls `begin`.
extern void *new_stack(void *high, void (*begin)(void));

static _Alignas(16) uint8_t stack[TASK_STACK];
static void *of_firmware, *of_task;
static int byte, status;

static void body(void) {
    status = main();
    for (;;) switch_stack(&of_task, of_firmware);
}

int task_next_byte(void) {
    while (byte == NO_BYTE) switch_stack(&of_task, of_firmware);
    int taken = byte;
    byte = NO_BYTE;
    return taken;
}

int task_begin(void) {
    byte = NO_BYTE;
    status = TASK_WAITS;
    of_task = new_stack(stack + sizeof stack, body);
    switch_stack(&of_firmware, of_task);
    return status;
}

int task_feed(int fed) {
    byte = fed;
    switch_stack(&of_firmware, of_task);
    return status;
}
