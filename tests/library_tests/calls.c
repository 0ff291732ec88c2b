/* Calls a form of the library as the program is called, on no more stack than the header names.
 *
 *     calls FORM IMAGE [INPUT or ROWS] [ROOM]
 *
 * An image that is not there is one of 256 erased sectors. The image is written back, the replies go to standard output,
 * and the status is the library's. Standard error tells how much of the stack was used, but where each access is WATCHED.
 */
#include "sorachest.h"
#include <pthread.h>
#include <stdio.h>
#include <stdlib.h>
#include <string.h>

/* a library without proofs takes more stack than the header names */
#ifndef STACK_KIB
#define STACK_KIB 96
#endif

enum { SECTOR = 4096, STACK = STACK_KIB * 1024, PAINT = 0xa5 };

/* What a call is given, and what it came to. */
static const char *form;
static uint8_t *image, *input, *replies;
static size_t image_length, input_length, room;
static uint16_t rows;
static struct sorachest_ended ended;

/* The bytes of a file, in memory that is just as long, so that a step beyond them is seen by whoever watches. */
static uint8_t *load(const char *path, size_t *length, size_t else_length) {
    FILE *file = fopen(path, "rb");
    *length = else_length;
    if (file && !fseek(file, 0, SEEK_END)) *length = (size_t)ftell(file);
    uint8_t *bytes = calloc(*length + !*length, 1);
    if (!bytes) exit(100);
    if (file) {
        rewind(file);
        if (fread(bytes, 1, *length, file) != *length) exit(101);
        fclose(file);
    }
    return bytes;
}

static void *call(void *none) {
    (void)none;
    if (!strcmp(form, "run")) ended = sorachest_run(image, image_length, input, input_length, replies, room);
    else if (!strcmp(form, "serve")) ended = sorachest_serve(image, image_length, input, input_length, replies, room);
    else if (!strcmp(form, "dump")) ended = sorachest_dump(image, image_length, replies, room);
    else if (!strcmp(form, "plan")) ended = sorachest_plan(image, image_length, rows, replies, room);
    else if (!strcmp(form, "look")) ended = sorachest_look(image, image_length, replies, room);
    else if (!strcmp(form, "check")) ended = sorachest_check(image, image_length, replies, room);
    else if (!strcmp(form, "collect")) ended = sorachest_collect(image, image_length, replies, room);
    else if (!strcmp(form, "repair")) ended = sorachest_repair(image, image_length, replies, room);
    else exit(102);
    return NULL;
}

#ifndef WATCHED
static uint8_t stack[STACK] __attribute__((aligned(64)));

/* Makes the call on the painted stack, and answers how many bytes of it lost their paint. */
static size_t call_on_stack(void) {
    pthread_attr_t how;
    pthread_t thread;
    size_t untouched = 0;
    memset(stack, PAINT, sizeof stack);
    if (pthread_attr_init(&how) || pthread_attr_setstack(&how, stack, sizeof stack)) exit(103);
    if (pthread_create(&thread, &how, call, NULL) || pthread_join(thread, NULL)) exit(104);
    while (untouched < sizeof stack && stack[untouched] == PAINT) untouched++;
    return sizeof stack - untouched;
}
#endif

int main(int words, char **word) {
    if (words < 3) return 105;
    form = word[1];
    image = load(word[2], &image_length, 256 * SECTOR);
    if (!strcmp(form, "plan")) rows = (uint16_t)atoi(word[3]);
    else input = load(words > 3 ? word[3] : "/dev/null", &input_length, 0);
    room = words > 4 ? strtoul(word[4], NULL, 10) : 1 << 24;
    replies = calloc(room + !room, 1);
    if (!replies) return 100;
#ifdef WATCHED
    size_t used = 0;
    call(NULL);
#else
    size_t used = call_on_stack();
#endif
    if (ended.written > room) return 106;
    fwrite(replies, 1, ended.written, stdout);
    FILE *file = fopen(word[2], "wb");
    if (!file || fwrite(image, 1, image_length, file) != image_length || fclose(file)) return 107;
    fprintf(stderr, "stack %zu\n", used);
    free(image);
    free(input);
    free(replies);
    return ended.status;
}
