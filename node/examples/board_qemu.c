/* The logger's board in qemu, over a board of port/, whose header BOARD names: it has the port, the timer and the flash. */
#include "board.h"
#include BOARD

uint32_t board_milliseconds(void) { return (uint32_t)(instructions() / 1000000); }

int board_take_now(void) { return port_has_byte() ? port_take() : NONE_CAME; }

void board_put(uint8_t byte) {
    while (!port_has_room()) {}
    port_put(byte);
}

void board_start(void) {
    port_begin();
    count_instructions();
    power_off(logger());
}

/* What start code calls for a trap, where it does not end the board itself. */
void board_trapped(void) { power_off(99); }
