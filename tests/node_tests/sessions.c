/* What the calls of sorachest_node.h answer, and what they leave. `sessions NAME` carries out one of the tests below. */
#include "chip.h"
#include <stdio.h>
#include <stdlib.h>
#include <string.h>

#define MUST(what) must((what) != 0, #what, __LINE__)

static struct sorachest db, other;
static struct sorachest_config *config, *config_of_other;

static void must(int is_so, const char *what, int line) {
    if (is_so) return;
    printf("FAILED, line %d: %s; the reply is '%s'\n", line, what, sorachest_reply(&db));
    exit(1);
}

static int count(void *context, const struct sorachest *of) {
    (void)of;
    ++*(int *)context;
    return 0;
}

static int exec(const char *command) { return sorachest_exec(&db, command, NULL, NULL); }

static int replies(const char *line) { return !strcmp(sorachest_reply(&db), line); }

static int rows_of(struct sorachest *of, const char *command) {
    int rows = 0;
    MUST(sorachest_exec(of, command, count, &rows) == SORACHEST_OK);
    return rows;
}

static void open_new(uint32_t sectors) {
    config = new_config(sectors);
    MUST(sorachest_open(&db, config) == SORACHEST_OK);
}

static void open_keyed(uint32_t sectors) {
    open_new(sectors);
    MUST(exec("CREATE RELATION r; CREATE ATTRIBUTE k DOMAIN INT IN r; CREATE ATTRIBUTE t DOMAIN STRING(12) IN r") == SORACHEST_OK);
}

static int insert(struct sorachest *of, int64_t key, const char *text) {
    struct sorachest_value values[] = {sorachest_of_int(key), sorachest_of_text(text, strlen(text))};
    return sorachest_insert(of, "r", values, 2);
}

static void close_all(void) {
    MUST(sorachest_close(&db) == SORACHEST_OK && sorachest_close(&db) == SORACHEST_OK);
    drop_config(config);
}

/* ---- Commands and rows */

static void test_rows_of_two_databases_mixed(void) {
    open_keyed(16);
    config_of_other = new_config(8);
    MUST(sorachest_open(&other, config_of_other) == SORACHEST_OK);
    MUST(sorachest_exec(&other, "CREATE RELATION r; CREATE ATTRIBUTE k DOMAIN INT IN r", NULL, NULL) == SORACHEST_OK);
    for (int key = 0; key < 50; key++) {
        char text[16];
        struct sorachest_value value = sorachest_of_int(key);
        snprintf(text, sizeof text, "a,b %d", key);
        MUST(insert(&db, key - 7, text) == SORACHEST_OK);
        MUST(sorachest_insert(&other, "r", &value, 1) == SORACHEST_OK);
    }
    MUST(sorachest_query(&db, "SELECT k, t FROM r WHERE k < 0") == SORACHEST_OK);
    MUST(sorachest_query(&other, "SELECT k FROM r") == SORACHEST_OK);
    for (int key = 0; key < 7; key++) {
        char text[16];
        size_t length;
        snprintf(text, sizeof text, "a,b %d", key);
        MUST(sorachest_step(&db) == SORACHEST_ROW && sorachest_columns(&db) == 2 && sorachest_int(&db, 0) == key - 7);
        MUST(sorachest_type(&db, 0) == SORACHEST_INT && sorachest_type(&db, 1) == SORACHEST_TEXT);
        const char *told = sorachest_text(&db, 1, &length);
        MUST(told && length == strlen(text) && !memcmp(told, text, length));
        MUST(sorachest_step(&other) == SORACHEST_ROW && sorachest_int(&other, 0) == key);
    }
    MUST(sorachest_step(&db) == SORACHEST_OK && replies("rows 7"));
    MUST(sorachest_finish(&other) == SORACHEST_OK && !strcmp(sorachest_reply(&other), "rows 50"));
    MUST(sorachest_close(&other) == SORACHEST_OK);
    drop_config(config_of_other);
    close_all();
}

static void test_a_refused_command_ends_a_script(void) {
    open_keyed(8);
    MUST(exec("INSERT (1, 'x') INTO r; INSERT (2) INTO r; INSERT (3, 'x') INTO r") == SORACHEST_REFUSED && replies("no value 2"));
    MUST(rows_of(&db, "SELECT k FROM r") == 1);
    MUST(exec("SELECT k FROM none") == SORACHEST_REFUSED && replies("no relation"));
    /* a quote that is left open takes nothing with it */
    MUST(exec("INSERT (4, 'x) INTO r") == SORACHEST_REFUSED && !strncmp(sorachest_reply(&db), "no syntax ", 10));
    MUST(exec("INSERT (4, ';') INTO r;") == SORACHEST_OK && replies("ok"));
    MUST(rows_of(&db, "SELECT k FROM r WHERE t = ';'") == 1);
    MUST(exec("") == SORACHEST_OK && replies("") && exec(" \n ; ;") == SORACHEST_OK && replies(""));
    MUST(exec("REMOVE FROM r WHERE k = 4") == SORACHEST_OK && replies("rows 1"));
    close_all();
}

static void test_a_command_has_at_most_512_bytes(void) {
    char command[520];
    open_keyed(8);
    MUST(insert(&db, 1, "") == SORACHEST_OK);
    memset(command, ' ', sizeof command);
    memcpy(command, "SELECT", 6);
    memcpy(command + SORACHEST_MOST_COMMAND - 8, "k FROM r", 8);
    command[SORACHEST_MOST_COMMAND] = 0;
    MUST(rows_of(&db, command) == 1);
    command[SORACHEST_MOST_COMMAND] = ' ';
    command[SORACHEST_MOST_COMMAND + 1] = 0;
    MUST(exec(command) == SORACHEST_REFUSED && replies("no long"));
    close_all();
}

static int pass_over(void *context, const struct sorachest *of) {
    (void)of;
    return ++*(int *)context == 3;
}

static void test_rows_that_nobody_wants_are_passed_over(void) {
    int rows = 0;
    open_keyed(8);
    for (int key = 0; key < 9; key++) MUST(insert(&db, key, "x") == SORACHEST_OK);
    MUST(sorachest_exec(&db, "SELECT k FROM r", pass_over, &rows) == SORACHEST_OK && rows == 3 && replies("rows 9"));
    MUST(sorachest_query(&db, "SELECT k FROM r") == SORACHEST_OK && sorachest_step(&db) == SORACHEST_ROW);
    MUST(sorachest_finish(&db) == SORACHEST_OK && replies("rows 9") && sorachest_finish(&db) == SORACHEST_OK);
    MUST(sorachest_query(&db, "SELECT k FROM r; REMOVE FROM r") == SORACHEST_OK && sorachest_step(&db) == SORACHEST_ROW);
    MUST(sorachest_close(&db) == SORACHEST_OK);
    MUST(sorachest_open(&db, config) == SORACHEST_OK && rows_of(&db, "SELECT k FROM r") == 9);
    close_all();
}

static void test_columns_that_have_no_value(void) {
    size_t length = 9;
    open_keyed(8);
    MUST(sorachest_query(&db, "SELECT MAX(k), COUNT(k), SUM(k) FROM r") == SORACHEST_OK && sorachest_columns(&db) == 0);
    MUST(sorachest_step(&db) == SORACHEST_ROW && sorachest_columns(&db) == 3);
    MUST(sorachest_type(&db, 0) == SORACHEST_NONE && sorachest_int(&db, 0) == 0);
    MUST(sorachest_type(&db, 1) == SORACHEST_INT && sorachest_int(&db, 1) == 0);
    MUST(sorachest_type(&db, 3) == SORACHEST_NONE && sorachest_type(&db, -1) == SORACHEST_NONE);
    MUST(!sorachest_text(&db, 1, &length) && length == 0 && !sorachest_text(&db, 3, NULL));
    MUST(sorachest_step(&db) == SORACHEST_OK && replies("rows 1") && sorachest_columns(&db) == 0 && sorachest_int(&db, 1) == 0);
    close_all();
}

static int is_called(int column, const char *name) {
    size_t length;
    const char *told = sorachest_name(&db, column, &length);
    return told && length == strlen(name) && !memcmp(told, name, length);
}

static void test_columns_are_called_as_the_command_calls_them(void) {
    size_t length = 9;
    open_keyed(8);
    MUST(exec("CREATE RELATION s; CREATE ATTRIBUTE k DOMAIN INT IN s; CREATE ATTRIBUTE from_ DOMAIN INT IN s") == SORACHEST_OK);
    MUST(insert(&db, 1, "x") == SORACHEST_OK && exec("INSERT (1, 2) INTO s") == SORACHEST_OK);
    MUST(sorachest_query(&db, "PACK r; select k ,\tt,k\nfrom r WHERE t <> ','") == SORACHEST_OK && !sorachest_name(&db, 0, &length));
    MUST(sorachest_step(&db) == SORACHEST_ROW && is_called(0, "k") && is_called(1, "t") && is_called(2, "k"));
    MUST(!sorachest_name(&db, 3, &length) && length == 0 && !sorachest_name(&db, -1, NULL) && sorachest_finish(&db) == SORACHEST_OK);
    MUST(sorachest_query(&db, " SELECT MAX( k ) , COUNT(from_)FROM s;") == SORACHEST_OK && sorachest_step(&db) == SORACHEST_ROW);
    MUST(is_called(0, "MAX( k )") && is_called(1, "COUNT(from_)") && sorachest_finish(&db) == SORACHEST_OK && !sorachest_name(&db, 0, NULL));
    MUST(sorachest_query(&db, "JOIN r, s ON k PROJECT from_, t") == SORACHEST_OK && sorachest_step(&db) == SORACHEST_ROW);
    MUST(is_called(0, "from_") && is_called(1, "t") && sorachest_int(&db, 0) == 2 && sorachest_finish(&db) == SORACHEST_OK);
    MUST(sorachest_query(&db, "OPEN 1 SELECT k FROM r; FETCH 1") == SORACHEST_OK && sorachest_step(&db) == SORACHEST_ROW);
    MUST(!sorachest_name(&db, 0, &length) && sorachest_int(&db, 0) == 1 && sorachest_finish(&db) == SORACHEST_OK);
    close_all();
}

static void test_the_longest_line_is_whole(void) {
    char command[600], *to = command;
    open_new(8);
    to += sprintf(to, "CREATE RELATION a23456789012345");
    for (int place = 0; place < 8; place++)
        to += sprintf(to, ";CREATE ATTRIBUTE b2345678901234%d DOMAIN STRING(15) IN a23456789012345", place);
    MUST(exec(command) == SORACHEST_OK);
    for (int row = 0; row < 12; row++) MUST(exec("INSERT ('', '', '', '', '', '', '', '') INTO a23456789012345") == SORACHEST_OK);
    MUST(sorachest_close(&db) == SORACHEST_OK);
    int lines = 0;
    MUST(sorachest_look(&db, config, count, &lines) == SORACHEST_OK && lines == 2);
    MUST(!strncmp(sorachest_reply(&db), "flash sectors 8 ", 16));
    drop_config(config);
    /* relation NAME (NAME STRING(15), ..) rows 32768 removed 32768 slots left 32768 */
    MUST(9 + 15 + 2 + 8 * (15 + 1 + 10) + 7 * 2 + 1 + 5 + 5 + 9 + 5 + 12 + 5 <= SORACHEST_MOST_LINE);
}

/* ---- Typed rows */

static void test_typed_values_are_stored_as_they_are(void) {
    static const int64_t numbers[] = {0, 140737488355327, 999999999999999};
    size_t length;
    open_new(16);
    MUST(exec("CREATE RELATION r; CREATE ATTRIBUTE k DOMAIN TIME IN r; CREATE ATTRIBUTE t DOMAIN STRING(32) IN r") == SORACHEST_OK);
    char text[SORACHEST_MOST_TEXT + 1] = "";
    for (int byte = ' '; byte <= '~'; byte++) {
        if (byte == '\'') continue;
        memset(text, byte, SORACHEST_MOST_TEXT);
        text[byte % 32] = 0;
        MUST(insert(&db, byte, text) == SORACHEST_OK);
        char query[64];
        sprintf(query, "SELECT t, k FROM r WHERE k = %d", byte);
        MUST(sorachest_query(&db, query) == SORACHEST_OK && sorachest_step(&db) == SORACHEST_ROW && sorachest_int(&db, 1) == byte);
        const char *told = sorachest_text(&db, 0, &length);
        MUST(told && length == (size_t)byte % 32 && !memcmp(told, text, length) && sorachest_step(&db) == SORACHEST_OK);
    }
    MUST(insert(&db, numbers[1], "most") == SORACHEST_OK && insert(&db, numbers[0], "") == SORACHEST_OK);
    MUST(insert(&db, numbers[2], "") == SORACHEST_REFUSED && replies("no value 1"));
    MUST(insert(&db, -1, "") == SORACHEST_REFUSED && replies("no value 1"));
    MUST(sorachest_query(&db, "SELECT MAX(k) FROM r") == SORACHEST_OK && sorachest_step(&db) == SORACHEST_ROW);
    MUST(sorachest_int(&db, 0) == numbers[1] && sorachest_finish(&db) == SORACHEST_OK);
    close_all();
}

static void test_values_that_no_row_can_have_are_told(void) {
    struct sorachest_value values[9], text = sorachest_of_text("it's", 4);
    for (int place = 0; place < 9; place++) values[place] = sorachest_of_int(place);
    open_keyed(8);
    long reads = chip_of(config)->reads;
    MUST(sorachest_insert(&db, "r", &text, 1) == SORACHEST_VALUE && sorachest_insert(&db, "r", values, 9) == SORACHEST_VALUE);
    MUST(sorachest_insert(&db, "r", values, 0) == SORACHEST_VALUE && sorachest_insert(&db, "r", NULL, 1) == SORACHEST_VALUE);
    text = sorachest_of_text("\n", 1), MUST(sorachest_insert(&db, "r", &text, 1) == SORACHEST_VALUE);
    text = sorachest_of_text("\x80", 1), MUST(sorachest_insert(&db, "r", &text, 1) == SORACHEST_VALUE);
    text = sorachest_of_text("a\0b", 3), MUST(sorachest_insert(&db, "r", &text, 1) == SORACHEST_VALUE);
    text = sorachest_of_text("123456789012345678901234567890123", 33), MUST(sorachest_insert(&db, "r", &text, 1) == SORACHEST_VALUE);
    text = sorachest_of_text(NULL, 1), MUST(sorachest_insert(&db, "r", &text, 1) == SORACHEST_VALUE);
    text.type = 7, MUST(sorachest_insert(&db, "r", &text, 1) == SORACHEST_VALUE);
    MUST(insert(&db, INT64_MIN, "") == SORACHEST_VALUE && insert(&db, 1000000000000000000, "") == SORACHEST_VALUE);
    static const char *const names[] = {"", "1r", "r;", "r r", "r'", "a234567890123456", "_r", NULL};
    for (int place = 0; place < 8; place++) MUST(sorachest_insert(&db, names[place], values, 1) == SORACHEST_VALUE);
    MUST(chip_of(config)->reads == reads && chip_of(config)->programs > 0);
    /* these the database judges */
    MUST(insert(&db, 32768, "") == SORACHEST_REFUSED && replies("no value 1") && insert(&db, -32768, "") == SORACHEST_OK);
    MUST(insert(&db, 999999999999999999, "") == SORACHEST_REFUSED && insert(&db, -999999999999999999, "") == SORACHEST_REFUSED);
    MUST(insert(&db, 1, "1234567890123") == SORACHEST_REFUSED && replies("no value 2") && insert(&db, 1, "123456789012") == SORACHEST_OK);
    MUST(sorachest_insert(&db, "SELECT", values, 2) == SORACHEST_REFUSED && sorachest_insert(&db, "none", values, 2) == SORACHEST_REFUSED);
    MUST(replies("no relation") && sorachest_insert(&db, "r", values, 8) == SORACHEST_REFUSED && replies("no value 2"));
    MUST(rows_of(&db, "SELECT k FROM r") == 2);
    close_all();
}

/* ---- What ends no session */

static void test_a_full_flash_ends_no_session(void) {
    int rows = 0, status;
    open_new(4);
    MUST(exec("CREATE RELATION n; CREATE ATTRIBUTE v DOMAIN LONG IN n") == SORACHEST_OK);
    while ((status = exec("INSERT (1) INTO n")) == SORACHEST_OK) rows++;
    /* as tests/library has it of the program */
    MUST(status == SORACHEST_NO_SPACE && replies("no space 32") && rows == 812);
    MUST(exec("INSERT (1) INTO n") == SORACHEST_NO_SPACE && exec("INSERT (1) INTO n; SELECT v FROM n") == SORACHEST_NO_SPACE);
    MUST(rows_of(&db, "SELECT v FROM n") == rows && exec("FETCH 1") == SORACHEST_REFUSED && replies("no cursor"));
    MUST(exec("INSERT (1) INTO n") == SORACHEST_NO_SPACE);
    close_all();
}

static void test_a_session_outlives_the_input_of_a_run(void) {
    static char command[513];
    open_keyed(8);
    MUST(insert(&db, 1, "x") == SORACHEST_OK);
    memset(command, ' ', 512);
    memcpy(command + 487, "SELECT k FROM r WHERE k=1", 25);
    /* 16,777,216 bytes are 32,704 of these and a part of the next */
    for (int turn = 0; turn < 33500; turn++) MUST(rows_of(&db, command) == 1);
    MUST(insert(&db, 2, "y") == SORACHEST_OK && rows_of(&db, "SELECT k FROM r") == 2);
    close_all();
}

/* ---- A flash that fails */

static void test_what_was_answered_is_there_after_a_failure(void) {
    for (int tears = 0; tears < 2; tears++) {
        for (long at = 1; at < 60; at++) {
            int status, answered = 0, rows;
            open_keyed(8);
            MUST(exec("CREATE INDEX r.k TYPE MAXHEAP") == SORACHEST_OK);
            struct chip *chip = chip_of(config);
            chip->programs = chip->erases = 0, chip->fails_at = at, chip->tears = tears;
            while ((status = insert(&db, answered, "some text")) == SORACHEST_OK) answered++;
            MUST(status == SORACHEST_FLASH && exec("SELECT k FROM r") == SORACHEST_MISUSE);
            chip->fails_at = 0;
            status = sorachest_open(&db, config);
            if (status == SORACHEST_NOT_SOUND) {
                MUST(!strncmp(sorachest_reply(&db), "no image ", 9) && sorachest_repair(&db, config, NULL, NULL) == SORACHEST_OK);
                MUST(replies("repaired") && sorachest_open(&db, config) == SORACHEST_OK);
            } else {
                MUST(status == SORACHEST_OK);
            }
            rows = rows_of(&db, "SELECT k FROM r");
            MUST(rows == answered || rows == answered + 1);
            MUST(insert(&db, 99, "more") == SORACHEST_OK && rows_of(&db, "SELECT k FROM r WHERE k = 99") == 1);
            close_all();
        }
    }
}

static void test_a_flash_that_does_other_than_it_says_is_told(void) {
    open_keyed(8);
    chip_of(config)->flips = 1;
    MUST(insert(&db, 1, "x") == SORACHEST_FLASH);
    close_all();
    open_keyed(8);
    int status;
    chip_of(config)->erases_idle = 1;
    while ((status = exec("INSERT (1, 'x') INTO r; REMOVE FROM r; PACK r")) == SORACHEST_OK) {}
    MUST(status == SORACHEST_FLASH && chip_of(config)->erases == 1);
    close_all();
    config = new_config(8);
    chip_of(config)->reads_fail = 1;
    MUST(sorachest_open(&db, config) == SORACHEST_FLASH && sorachest_look(&db, config, NULL, NULL) == SORACHEST_FLASH);
    MUST(sorachest_repair(&db, config, NULL, NULL) == SORACHEST_FLASH && chip_of(config)->programs == 0);
    drop_config(config);
}

static void test_opening_and_looking_write_nothing(void) {
    open_keyed(8);
    MUST(insert(&db, 1, "x") == SORACHEST_OK && sorachest_close(&db) == SORACHEST_OK);
    chip_of(config)->programs = chip_of(config)->erases = 0;
    MUST(sorachest_open(&db, config) == SORACHEST_OK && rows_of(&db, "SELECT k FROM r") == 1);
    MUST(exec("OPEN 1 SELECT k FROM r; FETCH 1") == SORACHEST_OK && sorachest_close(&db) == SORACHEST_OK);
    MUST(sorachest_look(&db, config, NULL, NULL) == SORACHEST_OK && sorachest_dump(&db, config, NULL, NULL) == SORACHEST_OK);
    MUST(sorachest_check(&db, config, NULL, NULL) == SORACHEST_OK && replies("sound"));
    MUST(sorachest_repair(&db, config, NULL, NULL) == SORACHEST_OK && replies("sound"));
    MUST(sorachest_collect(&db, config, NULL, NULL) == SORACHEST_OK && replies("sectors erased 0"));
    MUST(chip_of(config)->programs == 0 && chip_of(config)->erases == 0);
    chip_of(config)->bytes[9] = 0xfe; /* no cut leaves this */
    MUST(sorachest_open(&db, config) == SORACHEST_NOT_SOUND && sorachest_repair(&db, config, NULL, NULL) == SORACHEST_NOT_SOUND);
    MUST(chip_of(config)->programs == 0 && chip_of(config)->erases == 0);
    drop_config(config);
}

/* ---- Misuse */

static int refused_within;

static int misuse(void *context, const struct sorachest *of) {
    (void)context, (void)of;
    refused_within += exec("SELECT k FROM r") == SORACHEST_MISUSE && sorachest_step(&db) == SORACHEST_MISUSE;
    refused_within += sorachest_finish(&db) == SORACHEST_MISUSE && sorachest_close(&db) == SORACHEST_MISUSE;
    refused_within += insert(&db, 1, "x") == SORACHEST_MISUSE;
    return 0;
}

static void misuse_within_a_read(struct chip *chip) {
    (void)chip;
    misuse(NULL, NULL);
}

static void test_calls_that_may_not_come_now(void) {
    static struct sorachest closed;
    MUST(exec("SELECT k FROM r") == SORACHEST_MISUSE && sorachest_step(&closed) == SORACHEST_MISUSE);
    MUST(sorachest_finish(&closed) == SORACHEST_MISUSE && sorachest_close(&closed) == SORACHEST_OK);
    MUST(sorachest_columns(&closed) == 0 && sorachest_memory_used(&closed) == 0 && !*sorachest_reply(&closed));
    MUST(sorachest_close(NULL) == SORACHEST_MISUSE && sorachest_open(NULL, NULL) == SORACHEST_MISUSE);
    open_keyed(8);
    MUST(insert(&db, 1, "x") == SORACHEST_OK && insert(&db, 2, "x") == SORACHEST_OK);
    MUST(exec(NULL) == SORACHEST_MISUSE && sorachest_step(&db) == SORACHEST_MISUSE);
    MUST(sorachest_query(&db, "SELECT k FROM r") == SORACHEST_OK && sorachest_step(&db) == SORACHEST_ROW);
    MUST(sorachest_query(&db, "SELECT k FROM r") == SORACHEST_MISUSE && exec("SELECT k FROM r") == SORACHEST_MISUSE);
    MUST(insert(&db, 3, "x") == SORACHEST_MISUSE && sorachest_int(&db, 0) == 1);
    MUST(sorachest_step(&db) == SORACHEST_ROW && sorachest_int(&db, 0) == 2 && sorachest_step(&db) == SORACHEST_OK);
    MUST(sorachest_step(&db) == SORACHEST_MISUSE);
    MUST(sorachest_exec(&db, "SELECT k FROM r", misuse, NULL) == SORACHEST_OK && refused_within == 6);
    refused_within = 0;
    chip_of(config)->within = misuse_within_a_read;
    MUST(exec("SELECT k FROM r") == SORACHEST_OK && replies("rows 2") && refused_within > 0 && refused_within % 3 == 0);
    chip_of(config)->within = NULL;
    close_all();
}

static void wake_nobody(const struct sorachest_config *of, int whose) { (void)of, (void)whose; }

static void test_arguments_that_are_none(void) {
    struct sorachest_config *well = new_config(8), bad;
#define REFUSED_WITH(change)                                             \
    (bad = *well, change, sorachest_open(&db, &bad) == SORACHEST_MISUSE && \
                              sorachest_check(&db, &bad, NULL, NULL) == SORACHEST_MISUSE && \
                              sorachest_repair(&db, &bad, NULL, NULL) == SORACHEST_MISUSE && \
                              sorachest_collect(&db, &bad, NULL, NULL) == SORACHEST_MISUSE)
    MUST(sorachest_open(&db, NULL) == SORACHEST_MISUSE && sorachest_dump(&db, NULL, NULL, NULL) == SORACHEST_MISUSE);
    MUST(REFUSED_WITH(bad.read = NULL) && REFUSED_WITH(bad.program = NULL) && REFUSED_WITH(bad.erase = NULL));
    MUST(REFUSED_WITH(bad.sectors = 3) && REFUSED_WITH(bad.sectors = 4096) && REFUSED_WITH(bad.memory = NULL));
    MUST(REFUSED_WITH(bad.memory = (char *)bad.memory + 4));
    MUST(REFUSED_WITH(bad.memory_size = (well->wait ? SORACHEST_THREAD_MEMORY : SORACHEST_MEMORY) - 1));
    MUST(REFUSED_WITH((bad.wait = NULL, bad.wake = wake_nobody)));
    MUST(chip_of(well)->reads == 0 && sorachest_version() == SORACHEST_VERSION);
    for (int status = -30; status < 5; status++) MUST(strlen(sorachest_error(status)) > 3);
    drop_config(well);
}

static void use_other(struct chip *chip) {
    struct sorachest_value value = sorachest_of_int(1);
    if (sorachest_insert(&other, "r", &value, 1) == SORACHEST_OK) ++*(int *)chip->of_test;
}

static void test_a_callback_may_use_another_database(void) {
    int inserted = 0;
    open_keyed(8);
    config_of_other = new_config(64);
    MUST(sorachest_open(&other, config_of_other) == SORACHEST_OK);
    MUST(sorachest_exec(&other, "CREATE RELATION r; CREATE ATTRIBUTE k DOMAIN INT IN r", NULL, NULL) == SORACHEST_OK);
    chip_of(config)->of_test = &inserted, chip_of(config)->within = use_other;
    for (int key = 0; key < 20; key++) MUST(insert(&db, key, "x") == SORACHEST_OK);
    MUST(rows_of(&db, "SELECT k FROM r") == 20);
    chip_of(config)->within = NULL;
    MUST(inserted > 20 && rows_of(&other, "SELECT k FROM r") == inserted);
    MUST(sorachest_close(&other) == SORACHEST_OK);
    drop_config(config_of_other);
    close_all();
}

#define TEST(name) {#name, test_##name}
static const struct { const char *name; void (*test)(void); } tests[] = {
    TEST(rows_of_two_databases_mixed), TEST(a_refused_command_ends_a_script), TEST(a_command_has_at_most_512_bytes),
    TEST(rows_that_nobody_wants_are_passed_over), TEST(columns_that_have_no_value),
    TEST(columns_are_called_as_the_command_calls_them), TEST(the_longest_line_is_whole),
    TEST(typed_values_are_stored_as_they_are), TEST(values_that_no_row_can_have_are_told), TEST(a_full_flash_ends_no_session),
    TEST(a_session_outlives_the_input_of_a_run), TEST(what_was_answered_is_there_after_a_failure),
    TEST(a_flash_that_does_other_than_it_says_is_told), TEST(opening_and_looking_write_nothing),
    TEST(calls_that_may_not_come_now), TEST(arguments_that_are_none), TEST(a_callback_may_use_another_database),
};

/* Without a name all tests but the long one are carried out, with `names` their names are told. */
int main(int words, char **word) {
    for (size_t place = 0; place < sizeof tests / sizeof *tests; place++) {
        if (words == 2 && !strcmp(word[1], "names")) puts(tests[place].name);
        else if (words < 2 || !strcmp(word[1], tests[place].name)) tests[place].test();
    }
    return 0;
}
