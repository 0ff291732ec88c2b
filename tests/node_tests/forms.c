/* A form of the program by the library, over the image in a file, as the program is called:
 *
 *     forms run IMAGE <SCRIPT        forms dump IMAGE, look IMAGE, repair IMAGE
 *
 * The status is the library's, made positive. Standard error tells how much memory was used.
 */
#include "chip.h"
#include <stdio.h>
#include <stdlib.h>
#include <string.h>

enum { SECTOR = 4096, MOST_SCRIPT = 1 << 24 };

static int print(void *context, const struct sorachest *db) {
    (void)context;
    puts(sorachest_reply(db));
    return 0;
}

static void invert(uint8_t *bytes, size_t count) {
    while (count--) bytes[count] = (uint8_t)~bytes[count];
}

/* Where a command ends, as docs/AQL.md says. */
static char *end_of(char *at) {
    for (int is_in_quotes = 0; *at && (is_in_quotes || *at != ';'); at++) {
        if (*at == '\'') is_in_quotes = !is_in_quotes;
        if (*at == '\n') is_in_quotes = 0;
    }
    return at;
}

/* Carries the commands out one by one, and writes for each what `run` does. */
static int run(struct sorachest *db, const struct sorachest_config *config, char *script) {
    int status = sorachest_open(db, config);
    if (status) puts(sorachest_reply(db));
    while (*script && (status == SORACHEST_OK || status == SORACHEST_REFUSED)) {
        char *end = end_of(script);
        int is_last = !*end;
        *end = 0;
        if (is_last && strspn(script, " \t\r\n") == strlen(script)) break;
        status = sorachest_exec(db, script, print, NULL);
        if (*sorachest_reply(db)) puts(sorachest_reply(db));
        script = is_last ? end : end + 1;
    }
    return status == SORACHEST_REFUSED ? SORACHEST_OK : status;
}

int main(int words, char **word) {
    static struct sorachest db;
    static char script[MOST_SCRIPT + 1];
    FILE *file = words == 3 ? fopen(word[2], "r+b") : NULL;
    if (!file || fseek(file, 0, SEEK_END)) return 100;
    size_t sectors = (size_t)ftell(file) / SECTOR;
    rewind(file);
    struct sorachest_config *config = new_config((uint32_t)sectors);
    uint8_t *bytes = chip_of(config)->bytes;
    if (fread(bytes, SECTOR, sectors, file) != sectors) return 101;
    invert(bytes, sectors * SECTOR);
    int status;
    if (!strcmp(word[1], "run")) {
        script[fread(script, 1, MOST_SCRIPT, stdin)] = 0;
        status = run(&db, config, script);
    } else if (!strcmp(word[1], "dump")) {
        status = sorachest_dump(&db, config, print, NULL);
    } else if (!strcmp(word[1], "look")) {
        status = sorachest_look(&db, config, print, NULL);
    } else if (!strcmp(word[1], "check")) {
        status = sorachest_check(&db, config, print, NULL);
    } else if (!strcmp(word[1], "collect")) {
        status = sorachest_collect(&db, config, print, NULL);
    } else {
        status = sorachest_repair(&db, config, print, NULL);
    }
    fprintf(stderr, "memory %zu of %d\n", sorachest_memory_used(&db), SORACHEST_MEMORY);
    int closed = sorachest_close(&db);
    invert(bytes, sectors * SECTOR);
    rewind(file);
    if (fwrite(bytes, SECTOR, sectors, file) != sectors || fclose(file)) return 102;
    drop_config(config);
    return -(status ? status : closed);
}
