/* Sorachest for firmware: a relational database on a NOR flash, over three callbacks and memory that the caller lends.
 *
 *     static _Alignas(16) uint8_t memory[SORACHEST_MEMORY];
 *     static const struct sorachest_config config = {.read = flash_read, .program = flash_program, .erase = flash_erase,
 *                                                    .sectors = 128, .memory = memory, .memory_size = sizeof memory};
 *     static struct sorachest db;
 *
 *     int status = sorachest_open(&db, &config);
 *     if (status == SORACHEST_NOT_SOUND && sorachest_repair(&db, &config, NULL, NULL) == SORACHEST_OK)
 *         status = sorachest_open(&db, &config);
 *
 *     struct sorachest_value row[] = {sorachest_of_int(10), sorachest_of_int(21)};
 *     status = sorachest_insert(&db, "readings", row, 2);
 *
 *     status = sorachest_query(&db, "SELECT minute, celsius FROM readings WHERE celsius >= 18");
 *     if (status == SORACHEST_OK)
 *         while ((status = sorachest_step(&db)) == SORACHEST_ROW) use(sorachest_int(&db, 0), sorachest_int(&db, 1));
 *
 * The language is in docs/AQL.md. The database is the proved program `run`. Between calls it waits, on a stack of its own in
 * `memory`; it runs only inside these calls. The callbacks run on the caller's stack, and may wait. Nothing is allocated.
 *
 * That the commands which were answered OK are in the flash while the database waits has been read off the program, and is
 * tested. It is not proved: the contracts speak of the flash at the end of a run (docs/PROMISES.md, "In a firmware").
 *
 * Each open database has its own struct, memory and flash. You may mix calls on several databases, and a callback may use
 * another database. But only one thread at a time may be inside these calls, on any database, and no interrupt handler.
 *
 * c/sorachest.h is the interface for images in memory. A program can use only one of the two.
 */
#ifndef SORACHEST_NODE_H
#define SORACHEST_NODE_H

#ifdef SORACHEST_H
#error "sorachest.h and sorachest_node.h declare calls of the same names: include one of them"
#endif

#include <stddef.h>
#include <stdint.h>

#ifdef __cplusplus
extern "C" {
#endif

/* The version of this interface. It rises when a call or a struct changes. sorachest_version returns that of the object. */
#define SORACHEST_VERSION 1

enum {
    SORACHEST_SECTOR = 4096,
    SORACHEST_MEMORY = 64 * 1024,   /* bytes of memory, enough on every processor; fewer are refused */
    SORACHEST_THREAD_MEMORY = 2048, /* the same if a thread's own stack is used, see `wait` and `wake` */
    SORACHEST_MOST_COMMAND = 512,   /* bytes of a command; a longer one is refused with `no long` */
    SORACHEST_MOST_LINE = 299,      /* bytes of a line of a reply */
    SORACHEST_MOST_TEXT = 32,       /* bytes of a text */
    SORACHEST_MOST_VALUES = 8       /* values of a row */
};

/* What calls return. sorachest_error has a text for each. */
enum {
    SORACHEST_OK = 0,
    SORACHEST_ROW = 1,         /* step: there is a row */
    SORACHEST_REFUSED = -1,    /* the reply is `no ..` (docs/AQL.md). That command changed nothing, and the session continues */
    SORACHEST_NO_SPACE = -3,   /* the reply is `no space N`. That command changed nothing, and the session continues */
    SORACHEST_FLASH = -4,      /* a callback failed, or the flash does not hold what was written: the session has ended */
    SORACHEST_NOT_SOUND = -6,  /* the reply is `no image RULE PLACE` (docs/FORMATS.md). Nothing was written */
    SORACHEST_MISUSE = -20,    /* the call is not allowed now, or an argument is wrong: nothing was done */
    SORACHEST_VALUE = -21,     /* insert: no relation can have such a name or value: nothing was done */
    SORACHEST_STACK = -22      /* the database wrote below its memory, and may have overwritten what is there: reset */
};

/* What the caller provides. It must not change while the database is open. */
struct sorachest_config {
    void *context; /* for the callbacks only */

    /* The flash. Each returns 0, or another number if it failed. `at` and `count` stay within one sector of 4,096 bytes. Bytes
     * are as the chip has them: an erased one is ff. When a callback returns 0, the bytes are in the flash, also without
     * power. No callback may make a call on its own database. */
    int (*read)(const struct sorachest_config *config, uint32_t sector, uint32_t at, void *into, size_t count);
    /* At most 256 bytes within a page of 256. Clears the bits that are 0 in `bytes`, byte by byte in rising order. If the power
     * goes, two bytes at an even place are both done or neither. */
    int (*program)(const struct sorachest_config *config, uint32_t sector, uint32_t at, const void *bytes, size_t count);
    int (*erase)(const struct sorachest_config *config, uint32_t sector);
    uint32_t sectors; /* 4 to 4,095 */

    void *memory; /* aligned to 8 */
    size_t memory_size;

    /* Both or neither (NULL). With both, the database runs in a thread of the firmware, which calls sorachest_thread, and not on
     * a switched stack: for systems that check stacks. `wake` gives the semaphore `whose`, and `wait` takes it. `memory` then
     * needs SORACHEST_THREAD_MEMORY bytes, and the stack of that thread SORACHEST_MEMORY. */
    void (*wait)(const struct sorachest_config *config, int whose);
    void (*wake)(const struct sorachest_config *config, int whose);
};

/* The semaphores. Both begin with 0. */
enum { SORACHEST_CALLER, SORACHEST_THREAD };

/* A database. Begin with zeros, or with sorachest_open. The members belong to the library. */
struct sorachest {
    const struct sorachest_config *config;
    const char *form;
    void *of_caller, *of_program;
    const char *script, *command, *input, *behind;
    size_t input_left;
    uint32_t taken;
    uint32_t asked_sector, asked_at;
    void *asked_bytes;
    size_t asked_count;
    int asked_result, status, why;
    size_t heap_used, heap_last;
    uint8_t state, event, is_running, is_under_way, input_ends, is_refused, has_row;
    size_t length;
    char line[SORACHEST_MOST_LINE + 1];
};

/* Opens the flash: reads and checks all of it, and writes nothing. An erased flash is an empty database.
 * Returns OK, NOT_SOUND, FLASH or MISUSE. If it is not OK, the database stays closed. */
int sorachest_open(struct sorachest *db, const struct sorachest_config *config);

/* Carries out a command of AQL, or several separated by `;`, and calls `row` for each row, unless it is NULL. If `row` returns
 * anything but 0, exec skips the other rows. Commands after a refused one are not carried out.
 *
 * OK: all commands are done, and in the flash, also without power. REFUSED, NO_SPACE: all before the last one tried are.
 * FLASH: all before the interrupted one are; that one may be done in part, see sorachest_repair. The database is then closed.
 * MISUSE: `command` is NULL, the database is closed, an earlier query has rows left, or the call came from a callback. */
typedef int sorachest_row(void *context, const struct sorachest *db);
int sorachest_exec(struct sorachest *db, const char *command, sorachest_row *row, void *context);

/* The same, row by row. Call step until it returns something other than ROW; that is what exec would return. `command` must
 * stay unchanged until then. If you need no more rows, call finish, which takes the steps that are left. query itself does not
 * touch the flash, and returns OK or MISUSE. */
int sorachest_query(struct sorachest *db, const char *command);
int sorachest_step(struct sorachest *db);
int sorachest_finish(struct sorachest *db);

/* The columns of the current row, counted from 0. A column without a value, such as the MAX of no rows, has the type NONE, and
 * so has a column that does not exist. int returns 0 if the value is not a number. text returns NULL if it is not a text, or
 * else its bytes, without quotes and with no 0 at the end; `length` may be NULL. They stay until the next call. */
enum { SORACHEST_NONE, SORACHEST_INT, SORACHEST_TEXT };
int sorachest_columns(const struct sorachest *db);
int sorachest_type(const struct sorachest *db, int column);
int64_t sorachest_int(const struct sorachest *db, int column);
const char *sorachest_text(const struct sorachest *db, int column, size_t *length);

/* The name of a column in the command, such as `celsius` or `MAX(celsius)`: bytes of the command, with no 0 at the end. NULL if
 * the column does not exist, and for a row of FETCH. */
const char *sorachest_name(const struct sorachest *db, int column, size_t *length);

/* A value of a row: an INT, LONG or TIME, or a text. */
struct sorachest_value {
    int type; /* SORACHEST_INT or SORACHEST_TEXT */
    int64_t number;
    const char *text;
    size_t length;
};

static inline struct sorachest_value sorachest_of_int(int64_t number) {
    struct sorachest_value value = {SORACHEST_INT, number, NULL, 0};
    return value;
}

static inline struct sorachest_value sorachest_of_text(const char *text, size_t length) {
    struct sorachest_value value = {SORACHEST_TEXT, 0, text, length};
    return value;
}

/* INSERT of 1 to 8 values. Returns what exec returns. A value that does not suit its attribute is REFUSED (`no value N`).
 * VALUE: a text has a quote, a byte that is not 0x20 to 0x7e, or more than 32 bytes; a number has more than 18 digits; or
 * `relation` cannot be a name. */
int sorachest_insert(struct sorachest *db, const char *relation, const struct sorachest_value *values, size_t count);

/* The last line that the database wrote, ended by a 0: a row, `ok`, `rows 2`, `no attribute 1`. Empty if it has written none
 * since the last call began. A call that returns MISUSE or VALUE does not change it. */
const char *sorachest_reply(const struct sorachest *db);

/* Ends the session. The current command is finished; later ones are not carried out. You may leave it out, since nothing is
 * written between calls. OK, also for a closed database; FLASH if the current command failed; MISUSE from a callback. */
int sorachest_close(struct sorachest *db);

/* These work on a closed database, and leave it closed. They call `row` for each line, which sorachest_reply returns.
 *
 * repair repairs the flash after a power cut or a failed callback. The database is then as before the interrupted command, or
 * as after it. The lines are `sound`; or one for each change, and `repaired`. If repair itself is interrupted, call it again.
 * OK; NOT_SOUND: no power cut leaves such a flash; NO_SPACE: it needs more sectors; FLASH.
 * check gives the lines that repair would give if the flash has room, with `to be repaired` as the last one. OK both times;
 * NOT_SOUND, FLASH.
 * collect erases the sectors that hold only old data. The database stays, and an INSERT does not have to erase before the free
 * pages are used up. `sectors erased N`. OK; NOT_SOUND; FLASH: repair the flash then.
 * dump gives the script that makes the database again; look the relations, indexes and pages. check, dump and look write
 * nothing into the flash. */
int sorachest_check(struct sorachest *db, const struct sorachest_config *config, sorachest_row *row, void *context);
int sorachest_repair(struct sorachest *db, const struct sorachest_config *config, sorachest_row *row, void *context);
int sorachest_collect(struct sorachest *db, const struct sorachest_config *config, sorachest_row *row, void *context);
int sorachest_dump(struct sorachest *db, const struct sorachest_config *config, sorachest_row *row, void *context);
int sorachest_look(struct sorachest *db, const struct sorachest_config *config, sorachest_row *row, void *context);

/* What the thread of the firmware runs if `wait` and `wake` are set. It never returns. You may end the thread from outside
 * while it waits in `wait` and the database is closed. Start it before you open the database, or soon after. */
void sorachest_thread(const struct sorachest_config *config);

/* The most bytes of `memory` in use since the database was opened. A thread's own stack is not counted. */
size_t sorachest_memory_used(const struct sorachest *db);

/* A short text for what a call returned. */
const char *sorachest_error(int status);

int sorachest_version(void);

#ifdef __cplusplus
}
#endif

#endif
