/* What INSERTs cost a flash, from an empty relation to `no space`: `worst SECTORS KIND`. KIND is that of an index, or none. */
#include "chip.h"
#include <stdio.h>
#include <stdlib.h>
#include <string.h>

struct cost {
    long reads, bytes, programs, erases;
};

static struct cost cost_of(const struct chip *chip) {
    return (struct cost){chip->reads, chip->bytes_read, chip->programs, chip->erases};
}

static struct cost since(struct cost now, struct cost then) {
    return (struct cost){now.reads - then.reads, now.bytes - then.bytes, now.programs - then.programs, now.erases - then.erases};
}

static void tell(const char *what, struct cost cost) {
    printf("%s: %ld reads of %ld bytes, %ld programs, %ld erases\n", what, cost.reads, cost.bytes, cost.programs, cost.erases);
}

/* Erases take a chip longest, then programs. */
static int is_longer(struct cost one, struct cost other) {
    if (one.erases != other.erases) return one.erases > other.erases;
    return one.programs != other.programs ? one.programs > other.programs : one.bytes > other.bytes;
}

static void must(int status, const char *command) {
    if (status == SORACHEST_OK) return;
    printf("FAILED: %s: %s\n", command, sorachest_error(status));
    exit(1);
}

static void carry_out(struct sorachest *db, const char *command) { must(sorachest_exec(db, command, NULL, NULL), command); }

int main(int words, char **word) {
    static struct sorachest db;
    if (words < 3) return 100;
    struct sorachest_config *config = new_config((uint32_t)atoi(word[1]));
    struct chip *chip = chip_of(config);
    struct cost most = {0}, all = {0}, begin = cost_of(chip);
    long many = 0, erasing = 0;
    must(sorachest_open(&db, config), "open");
    tell("open", since(cost_of(chip), begin));
    carry_out(&db, "CREATE RELATION r; CREATE ATTRIBUTE k DOMAIN LONG IN r; CREATE ATTRIBUTE v DOMAIN INT IN r");
    if (strcmp(word[2], "none")) {
        char command[64];
        snprintf(command, sizeof command, "CREATE INDEX r.k TYPE %s", word[2]);
        carry_out(&db, command);
    }
    int is_spread = !strcmp(word[2], "MAXHEAP"), status;
    for (;; many++) {
        struct sorachest_value row[] = {sorachest_of_int(is_spread ? many * 7919 % 100003 : many), sorachest_of_int(many % 1000)};
        struct cost before = cost_of(chip);
        if ((status = sorachest_insert(&db, "r", row, 2)) != SORACHEST_OK) break;
        struct cost took = since(cost_of(chip), before);
        if (is_longer(took, most)) most = took;
        erasing += took.erases > 0;
        all.reads += took.reads, all.bytes += took.bytes, all.programs += took.programs, all.erases += took.erases;
    }
    if (status != SORACHEST_NO_SPACE && status != SORACHEST_REFUSED) must(status, "INSERT");
    printf("%ld inserts up to `%s`, %ld of them with an erase\n", many, sorachest_reply(&db), erasing);
    tell("all of them", all);
    tell("the longest", most);
    must(sorachest_close(&db), "close");
    drop_config(config);
    return 0;
}
