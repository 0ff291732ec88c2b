/* What the files of the library share. None of these names is seen outside of its object. */
#pragma once
#include "sorachest_node.h"

/* On the smallest processors there is no C library when this is compiled, so its headers are not asked for. */
void *memcpy(void *into, const void *from, size_t count);
void *memset(void *into, int byte, size_t count);
int memcmp(const void *one, const void *other, size_t count);

/* The program runs while a call waits for it, and the call goes on when the program has come to one of these. */
enum { WANTS_INPUT, HAS_LINE, WANTS_READ, WANTS_PROGRAM, WANTS_ERASE, HAS_ENDED };

/* Where a database stands: closed; between two commands; in the middle of them; inside of a call. */
enum { IS_CLOSED, IS_IDLE, IS_ANSWERING, IS_BUSY };

/* The four words of a form, and the fifth that is looked for, take 256 bytes each, and their list 96. */
enum { GUARD = 64, HEAP = 5 * 256 + 96 };

/* The database whose program runs. */
extern struct sorachest *sorachest_running;

/* The program, proved: it carries out one form, and answers its status. */
extern int sorachest_os_main(void);

/* turns.c */
void sorachest_prepare_memory(const struct sorachest_config *config);
void sorachest_begin_program(struct sorachest *db);
/* Lets the program run until it wants input, has a line or has ended: which of these, or SORACHEST_STACK. */
int sorachest_go_on(struct sorachest *db);
/* In the program: lets the call go on. */
void sorachest_give_up(int event);

static inline uint8_t *heap_of(const struct sorachest_config *config) { return (uint8_t *)config->memory + GUARD; }

static inline size_t text_length(const char *text) {
    size_t length = 0;
    while (text[length]) length++;
    return length;
}

static inline int begins_with(const char *line, const char *with) {
    while (*with && *line == *with) line++, with++;
    return !*with;
}
