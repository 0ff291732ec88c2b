#include "chip.h"
#include <stdio.h>
#include <stdlib.h>
#include <string.h>
#ifdef THREADS
#include <pthread.h>
#include <semaphore.h>

struct turns {
    sem_t whose[2];
    pthread_t thread;
};
#endif

enum { SECTOR = 4096, PAGE = 256 };

struct parts {
    struct sorachest_config config;
    struct chip chip;
#ifdef THREADS
    struct turns turns;
#endif
};

struct chip *chip_of(const struct sorachest_config *config) { return config->context; }

static void must(int is_so, const char *what) {
    if (is_so) return;
    printf("FAILED: a callback was asked for %s\n", what);
    exit(1);
}

static int take(const struct sorachest_config *config, uint32_t sector, uint32_t at, void *into, size_t count) {
    struct chip *chip = chip_of(config);
    must(sector < chip->sectors && at < SECTOR && count > 0 && count <= SECTOR - at, "bytes that are no part of a sector");
    chip->reads++;
    chip->bytes_read += (long)count;
    if (chip->within) chip->within(chip);
    if (chip->reads_fail) return 5;
    memcpy(into, chip->bytes + (size_t)sector * SECTOR + at, count);
    return 0;
}

static int fails(struct chip *chip) { return chip->fails_at && chip->programs + chip->erases >= chip->fails_at; }

static int put(const struct sorachest_config *config, uint32_t sector, uint32_t at, const void *bytes, size_t count) {
    struct chip *chip = chip_of(config);
    must(sector < chip->sectors && at < SECTOR && count > 0 && at % PAGE + count <= PAGE, "a program beyond a page");
    uint8_t *to = chip->bytes + (size_t)sector * SECTOR + at;
    const uint8_t *of = bytes;
    chip->programs++;
    size_t done = !fails(chip) ? count : chip->tears ? count / 2 : 0;
    if (done < count && (at + done) % 2) done++; /* two bytes at an even place are both done, or neither */
    for (size_t place = 0; place < done && place < count; place++) {
        must((to[place] & of[place]) == of[place], "a bit that would have to be set");
        to[place] &= of[place];
    }
    if (chip->flips) to[0] = 0;
    return fails(chip);
}

static int erase(const struct sorachest_config *config, uint32_t sector) {
    struct chip *chip = chip_of(config);
    must(sector < chip->sectors, "an erase beyond the flash");
    chip->erases++;
    if (chip->erases_idle) return 0;
    size_t done = !fails(chip) ? SECTOR : chip->tears ? SECTOR / 2 : 0;
    memset(chip->bytes + (size_t)sector * SECTOR, 0xff, done);
    return fails(chip);
}

#ifdef THREADS
static struct turns *turns_of(const struct sorachest_config *config) { return &((struct parts *)config)->turns; }

static void wait_for(const struct sorachest_config *config, int whose) {
    while (sem_wait(&turns_of(config)->whose[whose])) {}
}

static void wake(const struct sorachest_config *config, int whose) { sem_post(&turns_of(config)->whose[whose]); }

static void *thread(void *config) { return sorachest_thread(config), NULL; }

static void begin_thread(struct sorachest_config *config) {
    struct turns *turns = turns_of(config);
    config->wait = wait_for;
    config->wake = wake;
    config->memory_size = SORACHEST_THREAD_MEMORY;
    if (sem_init(&turns->whose[0], 0, 0) || sem_init(&turns->whose[1], 0, 0)) exit(1);
    if (pthread_create(&turns->thread, NULL, thread, config)) exit(1);
}

static void end_thread(struct sorachest_config *config) {
    pthread_cancel(turns_of(config)->thread);
    pthread_join(turns_of(config)->thread, NULL);
}
#else
static void begin_thread(struct sorachest_config *config) { (void)config; }
static void end_thread(struct sorachest_config *config) { (void)config; }
#endif

struct sorachest_config *new_config(uint32_t sectors) {
    struct parts *parts = calloc(1, sizeof *parts);
    if (!parts) exit(1);
    parts->chip.sectors = sectors;
    parts->chip.bytes = malloc((size_t)sectors * SECTOR);
    if (!parts->chip.bytes) exit(1);
    memset(parts->chip.bytes, 0xff, (size_t)sectors * SECTOR);
    parts->config.context = &parts->chip;
    parts->config.read = take;
    parts->config.program = put;
    parts->config.erase = erase;
    parts->config.sectors = sectors;
    parts->config.memory = malloc(SORACHEST_MEMORY);
    parts->config.memory_size = SORACHEST_MEMORY;
    if (!parts->config.memory) exit(1);
    begin_thread(&parts->config);
    return &parts->config;
}

void drop_config(struct sorachest_config *config) {
    end_thread(config);
    free(chip_of(config)->bytes);
    free(config->memory);
    free(config);
}
