/* Sorachest as a library: carries out AQL from standard input on an image in memory, which a file keeps.
 *
 *     cc example.c libsorachest.a -o example && ./example chip.img <script.aql
 *
 * The file stays as it was, or holds the image that the replies describe. A file that is too long or unreadable stays as it is.
 */
#define _POSIX_C_SOURCE 200809L
#include "sorachest.h"
#include <errno.h>
#include <stdio.h>
#include <stdlib.h>
#include <unistd.h>

enum { SECTOR = 4096, SECTORS = 256, MOST_SECTORS = 4095, MOST_INPUT = 1 << 24, ROOM = 1 << 24, MOST_PATH = 4096 };

static uint8_t image[MOST_SECTORS * SECTOR], script[MOST_INPUT + 1], replies[ROOM];

/* Reads an image, and returns whether all of it was read. An image that does not exist has erased sectors. */
static int load(const char *path, size_t *length) {
    FILE *file = fopen(path, "rb");
    *length = SECTORS * SECTOR;
    if (!file) return errno == ENOENT;
    *length = fread(image, 1, sizeof image, file);
    int is_whole = fgetc(file) == EOF && !ferror(file);
    fclose(file);
    return is_whole;
}

/* Writes another file, which gets the name when it is complete. */
static int save(const char *path, size_t length) {
    char beside[MOST_PATH];
    if (snprintf(beside, sizeof beside, "%s.new", path) >= (int)sizeof beside) return 0;
    FILE *file = fopen(beside, "wb");
    if (!file) return 0;
    int is_written = fwrite(image, 1, length, file) == length && fflush(file) == 0 && fsync(fileno(file)) == 0;
    if (fclose(file) == 0 && is_written && rename(beside, path) == 0) return 1;
    remove(beside);
    return 0;
}

int main(int words, char **word) {
    size_t image_length;
    if (words != 2) return fprintf(stderr, "usage: example IMAGE <SCRIPT\n"), EXIT_FAILURE;
    if (!load(word[1], &image_length)) return fprintf(stderr, "%s cannot be read, or is too long\n", word[1]), EXIT_FAILURE;
    size_t script_length = fread(script, 1, sizeof script, stdin);
    if (ferror(stdin)) return fprintf(stderr, "the script cannot be read\n"), EXIT_FAILURE;

    struct sorachest_ended ended = sorachest_run(image, image_length, script, script_length, replies, sizeof replies);

    if (ended.status == SORACHEST_NO_SPACE) fprintf(stderr, "the flash is full: append sectors of zeros\n");
    if (ended.status == SORACHEST_NOT_SOUND) fprintf(stderr, "the image is not sound: sorachest_check reports what sorachest_repair would change\n");
    int is_as_it_was = ended.status == SORACHEST_WRONG_LENGTH || ended.status == SORACHEST_NOT_SOUND;
    if (!is_as_it_was && !save(word[1], image_length))
        return fprintf(stderr, "%s cannot be written, and is as it was\n", word[1]), EXIT_FAILURE;
    /* after the image, so that no reply describes what was not saved */
    if (fwrite(replies, 1, ended.written, stdout) != ended.written || fflush(stdout)) return EXIT_FAILURE;
    return ended.status;
}
