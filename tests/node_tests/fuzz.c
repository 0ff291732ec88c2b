/* Random calls of sorachest_node.h on two databases whose flashes fail at random: `fuzz SEED CALLS`.
 *
 * Each call answers what the header allows, and what was inserted with OK is there to the end, also after failures. Commands
 * that are made of random bytes change no row, since each row that is inserted by values is counted by its key.
 */
#include "chip.h"
#include <stdio.h>
#include <stdlib.h>
#include <string.h>

#define MUST(what) must((what) != 0, #what, __LINE__)

struct user {
    struct sorachest db;
    struct sorachest_config *config;
    int is_open, is_asking;
    long answered; /* rows that were inserted with OK */
};

static struct user users[2], *me;
static uint64_t state;
static long calls, failures, repairs;

static void must(int is_so, const char *what, int line) {
    if (is_so) return;
    printf("FAILED, line %d, call %ld: %s; the reply is '%s'\n", line, calls, what, sorachest_reply(&me->db));
    exit(1);
}

static uint32_t below(uint32_t bound) {
    state = state * 6364136223846793005u + 1442695040888963407u;
    return (uint32_t)(state >> 33) % bound;
}

static int count(void *context, const struct sorachest *of) {
    (void)of;
    ++*(long *)context;
    return 0;
}

/* What a call that carries out commands may answer. Where it is FLASH the database is closed. */
static void take_answer(int status) {
    MUST(status == SORACHEST_OK || status == SORACHEST_REFUSED || status == SORACHEST_NO_SPACE || status == SORACHEST_FLASH);
    if (status == SORACHEST_FLASH) me->is_open = me->is_asking = 0;
}

static void recover(void) {
    struct chip *chip = chip_of(me->config);
    chip->fails_at = 0;
    int status = sorachest_open(&me->db, me->config);
    if (status == SORACHEST_NOT_SOUND) {
        MUST(sorachest_repair(&me->db, me->config, NULL, NULL) == SORACHEST_OK);
        repairs++;
        status = sorachest_open(&me->db, me->config);
    }
    MUST(status == SORACHEST_OK);
    me->is_open = 1, me->is_asking = 0;
    long rows = 0;
    if (sorachest_exec(&me->db, "SELECT k FROM r", count, &rows) == SORACHEST_REFUSED)
        MUST(sorachest_exec(&me->db, "CREATE RELATION r; CREATE ATTRIBUTE k DOMAIN INT IN r", NULL, NULL) == SORACHEST_OK);
    MUST(rows == me->answered || rows == me->answered + 1);
    me->answered = rows;
}

static void insert(void) {
    struct sorachest_value values[3] = {sorachest_of_int((int64_t)below(70000) - 35000), sorachest_of_int(1), sorachest_of_text("'", 1)};
    size_t many = below(20) ? 1 : below(4);
    int status = sorachest_insert(&me->db, below(50) ? "r" : "r ", values, many);
    if (status == SORACHEST_VALUE || (status == SORACHEST_MISUSE && (me->is_asking || !me->is_open))) return;
    take_answer(status);
    if (status == SORACHEST_OK) me->answered++;
}

static void ask(void) {
    static const char *const queries[] = {
        "SELECT k FROM r WHERE k > 0", "SELECT MAX(k), COUNT(k) FROM r", "OPEN 1 SELECT k FROM r; FETCH 1; FETCH 1; CLOSE 1",
        "SELECT none FROM r; SELECT k FROM r", ";;",
    };
    int status = sorachest_query(&me->db, queries[below(5)]);
    MUST(status == (me->is_open && !me->is_asking ? SORACHEST_OK : SORACHEST_MISUSE));
    me->is_asking = me->is_open;
}

static void step(void) {
    int status = sorachest_step(&me->db);
    if (!me->is_asking) MUST(status == SORACHEST_MISUSE);
    else if (status != SORACHEST_ROW) me->is_asking = 0, take_answer(status);
    else MUST(sorachest_columns(&me->db) > 0);
    for (int column = -1; column < 3; column++) {
        size_t length;
        if (sorachest_text(&me->db, column, &length)) MUST(length <= SORACHEST_MOST_TEXT);
        if (sorachest_name(&me->db, column, &length)) MUST(length > 0 && status == SORACHEST_ROW);
        MUST(sorachest_int(&me->db, column) == 0 || status == SORACHEST_ROW);
    }
}

static void garbage(void) {
    static const char bytes[] = "SELECT FROM WHERE k r ( ) ' ; , = < 0 1 9 - * / \n JOIN ON PROJECT";
    char command[600];
    uint32_t length = below(sizeof command - 1);
    for (uint32_t place = 0; place < length; place++) {
        command[place] = below(30) ? bytes[below(sizeof bytes - 1)] : (char)(1 + below(255));
    }
    command[length] = 0;
    int status = sorachest_exec(&me->db, command, NULL, NULL);
    if (me->is_asking || !me->is_open) MUST(status == SORACHEST_MISUSE);
    else take_answer(status);
}

static void finish(void) {
    int status = sorachest_finish(&me->db);
    if (!me->is_open) MUST(status == SORACHEST_MISUSE);
    else take_answer(status);
    me->is_asking = 0;
}

static void fail_soon(void) {
    struct chip *chip = chip_of(me->config);
    chip->fails_at = chip->programs + chip->erases + 1 + below(20);
    failures++;
}

static void close_it(void) {
    int status = sorachest_close(&me->db);
    MUST(status == SORACHEST_OK || status == SORACHEST_FLASH);
    me->is_open = me->is_asking = 0;
}

static void one_call(void) {
    uint32_t which = below(100);
    if (which < 50) insert();
    else if (which < 65) ask();
    else if (which < 85) step();
    else if (which < 92) garbage();
    else if (which < 95) finish();
    else if (which < 97) fail_soon();
    else if (which < 98) close_it();
    else if (which < 99 && !me->is_open) MUST(sorachest_look(&me->db, me->config, NULL, NULL) <= 0);
    if (!me->is_open && below(3) == 0) recover();
}

int main(int words, char **word) {
    if (words != 3) return 100;
    state = strtoull(word[1], NULL, 10);
    for (int place = 0; place < 2; place++) {
        me = &users[place];
        me->config = new_config(place ? 16 : 8);
        chip_of(me->config)->tears = 1;
        recover();
    }
    for (long many = strtol(word[2], NULL, 10); calls < many; calls++) {
        me = &users[below(2)];
        one_call();
    }
    for (int place = 0; place < 2; place++) {
        me = &users[place];
        sorachest_close(&me->db);
        recover();
        MUST(sorachest_close(&me->db) == SORACHEST_OK);
        drop_config(me->config);
    }
    printf("%ld calls, %ld failures, %ld repairs, %ld and %ld rows\n", calls, failures, repairs, users[0].answered, users[1].answered);
    return 0;
}
