/* Whose turn it is: the program and the call take turns, on two stacks of one thread or in two threads.
 *
 * Memory is, from below: a guard, the heap for the words, the program's stack. All is painted before, which tells how much
 * was used.
 */
#include "inside.h"
#ifdef SORACHEST_WATCHED
#include <sanitizer/asan_interface.h>
#include <valgrind/memcheck.h>
#endif

/* port/switch_*.S and switch_x86_64.S: keeps this stack at `kept`, and goes on with another one that was kept so. */
extern void switch_stack(void **kept, void *other);
/* A stack on which nothing has run, as switch_stack keeps it: going on with it calls `begin`. */
extern void *new_stack(void *high, void (*begin)(void));

struct sorachest *sorachest_running;

static const uint64_t paint = 0xa5a5a5a5a5a5a5a5;

static int has_thread(const struct sorachest_config *config) { return config->wait != NULL; }

static uint64_t *words_of(const struct sorachest_config *config) { return config->memory; }

/* ---- In the program */

void sorachest_give_up(int event) {
    struct sorachest *db = sorachest_running;
    db->event = (uint8_t)event;
    if (has_thread(db->config)) {
        db->config->wake(db->config, SORACHEST_CALLER);
        db->config->wait(db->config, SORACHEST_THREAD);
    } else {
        switch_stack(&db->of_program, db->of_caller);
    }
}

static void body(void) {
    sorachest_running->status = sorachest_os_main();
    for (;;) sorachest_give_up(HAS_ENDED);
}

void sorachest_thread(const struct sorachest_config *config) {
    for (;;) {
        config->wait(config, SORACHEST_THREAD);
        struct sorachest *db = sorachest_running;
        db->status = sorachest_os_main();
        db->event = HAS_ENDED;
        config->wake(config, SORACHEST_CALLER);
    }
}

/* ---- In the call */

void sorachest_prepare_memory(const struct sorachest_config *config) {
#ifdef SORACHEST_WATCHED
    /* frames of a program that never went on are no one's */
    ASAN_UNPOISON_MEMORY_REGION(config->memory, config->memory_size);
    VALGRIND_STACK_REGISTER(config->memory, (uint8_t *)config->memory + config->memory_size);
    VALGRIND_MAKE_MEM_UNDEFINED(config->memory, config->memory_size);
#endif
    for (size_t place = 0; place < config->memory_size / 8; place++) words_of(config)[place] = paint;
}

void sorachest_begin_program(struct sorachest *db) {
    const struct sorachest_config *config = db->config;
    uintptr_t high = ((uintptr_t)config->memory + config->memory_size) & ~(uintptr_t)15;
    if (!has_thread(config)) db->of_program = new_stack((void *)high, body);
    db->heap_used = db->heap_last = 0;
    db->taken = 0;
    db->length = 0;
    db->is_running = 1;
}

static int guard_stands(const struct sorachest_config *config) {
    for (size_t place = 0; place < GUARD / 8; place++)
        if (words_of(config)[place] != paint) return 0;
    return 1;
}

static void give_turn(struct sorachest *db) {
    sorachest_running = db; /* each time, since a callback may have used another database */
    if (has_thread(db->config)) {
        db->config->wake(db->config, SORACHEST_THREAD);
        db->config->wait(db->config, SORACHEST_CALLER);
    } else {
        switch_stack(&db->of_caller, db->of_program);
    }
}

int sorachest_go_on(struct sorachest *db) {
    const struct sorachest_config *config = db->config;
    for (;;) {
        give_turn(db);
        if (!guard_stands(config)) {
            db->is_running = 0;
            return SORACHEST_STACK;
        }
        switch (db->event) {
        case WANTS_READ:
            db->asked_result = config->read(config, db->asked_sector, db->asked_at, db->asked_bytes, db->asked_count);
            break;
        case WANTS_PROGRAM:
            db->asked_result = config->program(config, db->asked_sector, db->asked_at, db->asked_bytes, db->asked_count);
            break;
        case WANTS_ERASE: db->asked_result = config->erase(config, db->asked_sector); break;
        case HAS_ENDED: db->is_running = 0; return HAS_ENDED;
        default: return db->event;
        }
    }
}

size_t sorachest_memory_used(const struct sorachest *db) {
    if (!db->config) return 0;
#ifdef SORACHEST_WATCHED
    VALGRIND_MAKE_MEM_DEFINED(db->config->memory, db->config->memory_size); /* what lies below the stack is only looked at */
#endif
    size_t words = db->config->memory_size / 8, low = (GUARD + HEAP) / 8, place = low;
    while (place < words && words_of(db->config)[place] == paint) place++;
    return (words - place + low) * 8;
}
