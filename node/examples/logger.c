/* A logger as a firmware: a timer stores readings, and meanwhile a shell on the serial line answers queries.
 *
 * A line is a command of AQL, and is answered as by `antelope run`; `?` prints how much memory the database used. board.h has
 * what a board provides: board_host.c does so on a computer, board_qemu.c on boards of qemu.
 */
#include "../sorachest_node.h"
#include "board.h"

/* Milliseconds between two readings. */
#ifndef LOGGER_EVERY
#define LOGGER_EVERY 1000
#endif
/* Interrupts that use the database's stack, as on a Cortex-M without an operating system, need more. */
#ifndef LOGGER_MEMORY
#define LOGGER_MEMORY (SORACHEST_MEMORY + 1024)
#endif

static _Alignas(16) uint8_t memory[LOGGER_MEMORY];
static struct sorachest_config config;
static struct sorachest db;
static int64_t next_reading;

/* ---- The flash: sorachest_node.h says what each function must do */

static int flash_read(const struct sorachest_config *of, uint32_t sector, uint32_t at, void *into, size_t count) {
    (void)of;
    return !board_read(sector, at, into, count);
}

static int flash_program(const struct sorachest_config *of, uint32_t sector, uint32_t at, const void *bytes, size_t count) {
    (void)of;
    return !board_program(sector, at, bytes, count);
}

static int flash_erase(const struct sorachest_config *of, uint32_t sector) {
    (void)of;
    return !board_erase(sector);
}

/* ---- The serial line */

static void say(const char *text) {
    while (*text) board_put((uint8_t)*text++);
}

static void say_line(const char *text) {
    say(text);
    say("\n");
}

static void say_number(size_t number) {
    char digits[24];
    size_t first = sizeof digits - 1;
    digits[first] = 0;
    do digits[--first] = (char)('0' + number % 10);
    while (number /= 10);
    say(digits + first);
}

static int say_row(void *context, const struct sorachest *of) {
    (void)context;
    say_line(sorachest_reply(of));
    return 0;
}

/* ---- The database */

/* Opens the flash, after a repair if a power cut made that necessary. */
static int open_database(void) {
    int status = sorachest_open(&db, &config);
    if (status == SORACHEST_NOT_SOUND) {
        say_line("repairing");
        status = sorachest_repair(&db, &config, say_row, NULL);
        if (status == SORACHEST_OK) status = sorachest_open(&db, &config);
    }
    if (status != SORACHEST_OK) say_line(sorachest_error(status));
    return status == SORACHEST_OK;
}

/* Creates what does not exist yet: the power may have failed between two of these commands. */
static int make_relation(void) {
    static const char *const commands[] = {
        "CREATE RELATION readings",
        "CREATE ATTRIBUTE number DOMAIN LONG IN readings",
        "CREATE ATTRIBUTE celsius DOMAIN INT IN readings",
        "CREATE INDEX readings.number TYPE INLINE",
    };
    for (size_t place = 0; place < sizeof commands / sizeof *commands; place++) {
        int status = sorachest_exec(&db, commands[place], NULL, NULL);
        if (status != SORACHEST_OK && status != SORACHEST_REFUSED) return 0;
    }
    return 1;
}

/* The number after that of the last reading. */
static int find_next_reading(void) {
    if (sorachest_query(&db, "SELECT MAX(number) FROM readings") != SORACHEST_OK) return 0;
    next_reading = 0;
    if (sorachest_step(&db) == SORACHEST_ROW && sorachest_type(&db, 0) == SORACHEST_INT) next_reading = sorachest_int(&db, 0) + 1;
    return sorachest_finish(&db) == SORACHEST_OK;
}

static int begin(void) { return open_database() && make_relation() && find_next_reading(); }

/* Replace this by a sensor. */
static int measure(void) { return (int)(18 + next_reading * 7 % 5); }

static void store(void) {
    struct sorachest_value row[] = {sorachest_of_int(next_reading), sorachest_of_int(measure())};
    int status = sorachest_insert(&db, "readings", row, 2);
    if (status == SORACHEST_OK) {
        next_reading++;
        return;
    }
    say("not stored: ");
    say_line(status == SORACHEST_REFUSED ? sorachest_reply(&db) : sorachest_error(status));
    if (status == SORACHEST_FLASH) begin();
}

/* ---- The shell */

static void answer(const char *line) {
    if (line[0] == '?' && !line[1]) {
        say("memory ");
        say_number(sorachest_memory_used(&db));
        say("\n");
        return;
    }
    int status = sorachest_exec(&db, line, say_row, NULL);
    say_line(status == SORACHEST_MISUSE ? sorachest_error(status) : sorachest_reply(&db));
    if (status == SORACHEST_FLASH) begin();
}

/* Takes a byte of a line, and answers the line when it is complete. */
static void take(int byte) {
    static char line[SORACHEST_MOST_COMMAND + 1];
    static size_t length;
    if (byte != '\n' && byte != '\r') {
        if (length <= SORACHEST_MOST_COMMAND) line[length++] = (char)byte;
        return;
    }
    int is_whole = length <= SORACHEST_MOST_COMMAND;
    line[is_whole ? length : 0] = 0;
    length = 0;
    if (!is_whole) say_line("no long");
    else if (line[0]) answer(line);
}

int logger(void) {
    config = (struct sorachest_config){
        .read = flash_read, .program = flash_program, .erase = flash_erase,
        .sectors = board_sectors(), .memory = memory, .memory_size = sizeof memory,
    };
    if (!begin()) return 1;
    say_line("ready");
    for (uint32_t last = board_milliseconds();;) {
        if (board_milliseconds() - last >= LOGGER_EVERY) {
            last += LOGGER_EVERY;
            store();
        }
        int byte = board_take_now();
        if (byte != NONE_CAME) take(byte);
    }
}
