/* What calls take on a board of qemu, in the place of the logger: with -icount shift=0 its timer counts instructions. */
#include "board.h"
#include "../../node/sorachest_node.h"
#include BOARD

static _Alignas(16) uint8_t memory[SORACHEST_MEMORY];
static struct sorachest db;
static uint64_t since, reads, programs;

static int take(const struct sorachest_config *of, uint32_t sector, uint32_t at, void *into, size_t count) {
    (void)of;
    reads++;
    return !board_read(sector, at, into, count);
}

static int put(const struct sorachest_config *of, uint32_t sector, uint32_t at, const void *bytes, size_t count) {
    (void)of;
    programs++;
    return !board_program(sector, at, bytes, count);
}

static int erase(const struct sorachest_config *of, uint32_t sector) {
    (void)of;
    return !board_erase(sector);
}

static void say(const char *text) {
    while (*text) board_put((uint8_t)*text++);
}

static void say_number(uint64_t number) {
    char digits[24];
    size_t first = sizeof digits - 1;
    digits[first] = 0;
    do digits[--first] = (char)('0' + number % 10);
    while (number /= 10);
    say(digits + first);
}

/* A line of what was done since the last one. */
static void tell(const char *what, int is_well) {
    uint64_t took = instructions() - since;
    say(what);
    say(" instructions ");
    say_number(took);
    say(" reads ");
    say_number(reads);
    say(" programs ");
    say_number(programs);
    say(is_well ? "\n" : " FAILED\n");
    reads = programs = 0;
    since = instructions();
}

int logger(void) {
    const struct sorachest_config config = {
        .read = take, .program = put, .erase = erase, .sectors = board_sectors(), .memory = memory, .memory_size = sizeof memory,
    };
    struct sorachest_value row[] = {sorachest_of_int(1000), sorachest_of_int(7)};
    since = instructions();
    tell("open", sorachest_open(&db, &config) == SORACHEST_OK);
    tell("first insert", sorachest_insert(&db, "n", row, 2) == SORACHEST_OK);
    row[0].number++;
    tell("insert", sorachest_insert(&db, "n", row, 2) == SORACHEST_OK);
    tell("point query", sorachest_exec(&db, "SELECT v FROM n WHERE k = 500", NULL, NULL) == SORACHEST_OK);
    tell("point query", sorachest_exec(&db, "SELECT v FROM n WHERE k = 501", NULL, NULL) == SORACHEST_OK);
    tell("1,002 rows", sorachest_exec(&db, "SELECT v FROM n", NULL, NULL) == SORACHEST_OK);
    tell("maximum of 1,002 rows", sorachest_exec(&db, "SELECT MAX(v) FROM n", NULL, NULL) == SORACHEST_OK);
    tell("close", sorachest_close(&db) == SORACHEST_OK);
    tell("repair", sorachest_repair(&db, &config, NULL, NULL) == SORACHEST_OK);
    say("memory ");
    say_number(sorachest_memory_used(&db));
    say("\n");
    return 0;
}
