// The common part of qemu's boards: arguments, line, and what happens from power on to power off. BOARD names the header of
// one of them.
#include BOARD
#include "measure.h"
#include "node.h"
#include "task.h"

// ---- The arguments, each ended by a zero, and another zero after the last

const char *board_word(size_t place) {
    const char *word = loaded;
    for (; *word && place; place--)
        while (*word++) {}
    return *word ? word : NULL;
}

// ---- The line

void board_put(uint8_t byte) {
    while (!port_has_room()) {}
    port_put(byte);
}

// ---- From power on to power off

#ifdef TASK
int board_take(void) { return task_next_byte(); }

// A firmware that has other work to do: it feeds the database each byte that has arrived.
static int carry_out(void) {
    int status = task_begin();
    while (status == TASK_WAITS)
        if (port_has_byte()) status = task_feed(port_take());
    return status;
}
#else
int board_take(void) {
    while (!port_has_byte()) {}
    return port_take();
}

static int carry_out(void) { return main(); }
#endif

void board_start(void) {
    port_begin();
#ifdef MEASURE
    count_instructions();
    measure_begin(instructions);
    int status = carry_out();
    measure_end(board_put);
#else
    int status = carry_out();
#endif
    power_off(status);
}

// Start code calls this for a trap, unless it ends the board itself.
void board_trapped(void) { power_off(99); }
