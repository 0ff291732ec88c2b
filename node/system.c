/* The calls that the proved program makes of a system, over the callbacks of a firmware.
 *
 * They run on the program's stack. What each owes stands at the head of port/node.c.
 */
#include "inside.h"

/* Names that no system has, so that a firmware may have the usual ones; `build` gives them to the program, too. */
#define read sorachest_os_read
#define write sorachest_os_write
#define pread sorachest_os_pread
#define pwrite sorachest_os_pwrite
#define open sorachest_os_open
#define close sorachest_os_close
#define statx sorachest_os_statx
#define __sysv_signal sorachest_os_signal
#include "../port/calls.h"

enum { PAGE = 256, SECTOR = SORACHEST_SECTOR, LINE_IN = 0, LINE_OUT = 1, FLASH = 3, EIO = 5, EBADF = 9 };

/* ---- The heap, for the words alone: of what was taken only the last can grow in its place or be given back */

static int take_up_to(size_t begin, usize count) {
    struct sorachest *db = sorachest_running;
    if (begin > HEAP || count > HEAP - begin) return 0;
    db->heap_last = begin;
    db->heap_used = begin + (((size_t)count + !count + 15) & ~(size_t)15);
    return 1;
}

static int is_last(const void *taken) { return taken == heap_of(sorachest_running->config) + sorachest_running->heap_last; }

static struct taken take(usize count) {
    size_t begin = sorachest_running->heap_used;
    struct taken taken = {0, (uintptr_t)(heap_of(sorachest_running->config) + begin)};
    taken.well = (uint64_t)take_up_to(begin, count);
    return taken;
}

static struct taken take_more(void *old, usize kept, usize count) {
    if (is_last(old)) {
        struct taken taken = {(uint64_t)take_up_to(sorachest_running->heap_last, count), (uintptr_t)old};
        return taken;
    }
    struct taken taken = take(count);
    if (taken.well) memcpy((void *)(uintptr_t)taken.at, old, (size_t)(kept < count ? kept : count));
    return taken;
}

/* Where an address has 32 bits the pair is handed over in memory (port/addresses32.py). No alignment is more than 8. */
#if __SIZEOF_POINTER__ > 4
struct taken rattle_alloc(usize count, usize alignment) {
    (void)alignment;
    return take(count);
}

struct taken rattle_realloc(void *old, usize kept, usize count, usize alignment) {
    (void)alignment;
    return take_more(old, kept, count);
}
#else
void node_alloc(struct taken *out, usize count, usize alignment) {
    (void)alignment;
    *out = take(count);
}

void node_realloc(struct taken *out, void *old, usize kept, usize count, usize alignment) {
    (void)alignment;
    *out = take_more(old, kept, count);
}
#endif

void rattle_dealloc(void *old) {
    if (is_last(old)) sorachest_running->heap_used = sorachest_running->heap_last;
}

/* ---- The words, and an environment without variables */

enum { NO_SUCH = -1, NO_ROOM = -2 };

int64_t rattle_arg(usize place, uint8_t *into, usize room) {
    const char *form = sorachest_running->form;
    const char *words[] = {"node", form, "chip", form[0] == 'r' && form[1] == 'u' ? "-" : NULL};
    if (place >= sizeof words / sizeof *words || !words[place]) return NO_SUCH;
    size_t count = text_length(words[place]);
    if (count > room) return NO_ROOM;
    memcpy(into, words[place], count);
    return (int64_t)count;
}

int64_t rattle_env(const uint8_t *name, uint8_t *into, usize room) {
    (void)name, (void)into, (void)room;
    return NO_SUCH;
}

int64_t rattle_env_at(usize place, uint8_t *into, usize room) {
    (void)place, (void)into, (void)room;
    return NO_SUCH;
}

/* ---- Why a call failed */

void rattle_set_errno(int number) { sorachest_running->why = number; }
int rattle_errno(void) { return sorachest_running->why; }

static int64_t fail(int number) {
    sorachest_running->why = number;
    return -1;
}

/* ---- Commands in, lines out */

/* Waits for a command. What stands behind it, `;`, comes in a read of its own. */
static void wait_for_input(struct sorachest *db) {
    while (!db->input_left && !db->input_ends) {
        if (!db->behind) {
            sorachest_give_up(WANTS_INPUT);
            continue;
        }
        db->input = db->behind;
        db->input_left = text_length(db->behind);
        db->behind = NULL;
    }
}

int64_t read(int file, uint8_t *into, usize room) {
    struct sorachest *db = sorachest_running;
    if (file != LINE_IN) return fail(EBADF);
    if (room == 0) return 0;
    wait_for_input(db);
    size_t count = room < db->input_left ? (size_t)room : db->input_left;
    if (count) memcpy(into, db->input, count);
    db->input += count;
    db->input_left -= count;
    db->taken += (uint32_t)count;
    return (int64_t)count;
}

int64_t write(int file, const uint8_t *from, usize count) {
    struct sorachest *db = sorachest_running;
    if (file != LINE_OUT) return fail(EBADF);
    for (usize place = 0; place < count; place++) {
        if (from[place] != '\n') {
            if (db->length < SORACHEST_MOST_LINE) db->line[db->length++] = (char)from[place];
            continue;
        }
        db->line[db->length] = 0;
        db->length = 0;
        sorachest_give_up(HAS_LINE);
    }
    return (int64_t)count;
}

/* ---- The flash */

static uint64_t size_of_flash(void) { return (uint64_t)SECTOR * sorachest_running->config->sectors; }

static int is_within(int file, int64_t at, usize count) {
    return file == FLASH && at >= 0 && count <= size_of_flash() && (uint64_t)at <= size_of_flash() - count;
}

/* Whether a callback did what is asked for. */
static int ask(int what, uint64_t at, void *bytes, size_t count) {
    struct sorachest *db = sorachest_running;
    db->asked_sector = (uint32_t)(at / SECTOR);
    db->asked_at = (uint32_t)(at % SECTOR);
    db->asked_bytes = bytes;
    db->asked_count = count;
    sorachest_give_up(what);
    return db->asked_result == 0;
}

static int read_inverted(uint64_t at, uint8_t *into, size_t count) {
    if (!ask(WANTS_READ, at, into, count)) return 0;
    for (size_t place = 0; place < count; place++) into[place] = (uint8_t)~into[place];
    return 1;
}

int64_t pread(int file, uint8_t *into, usize count, int64_t at) {
    if (!is_within(file, at, count) || (uint64_t)at % SECTOR + count > SECTOR) return fail(EBADF);
    return read_inverted((uint64_t)at, into, (size_t)count) ? (int64_t)count : fail(EIO);
}

static int are_zeros(const uint8_t *bytes, size_t count) {
    for (size_t place = 0; place < count; place++)
        if (bytes[place]) return 0;
    return 1;
}

static int erase(uint64_t at) {
    uint8_t page[PAGE];
    if (!ask(WANTS_ERASE, at, NULL, 0)) return 0;
    for (uint64_t place = at; place < at + SECTOR; place += PAGE)
        if (!read_inverted(place, page, PAGE) || !are_zeros(page, PAGE)) return 0;
    return 1;
}

/* Whether each bit that stands in the flash is in what is to be written. */
static int is_or(const uint8_t *standing, const uint8_t *from, size_t count) {
    for (size_t place = 0; place < count; place++)
        if (standing[place] & ~from[place]) return 0;
    return 1;
}

static int program(uint64_t at, const uint8_t *from, size_t count) {
    uint8_t page[PAGE];
    if (!read_inverted(at, page, count) || !is_or(page, from, count)) return 0;
    for (size_t place = 0; place < count; place++) page[place] = (uint8_t)~from[place];
    return ask(WANTS_PROGRAM, at, page, count) && read_inverted(at, page, count) && memcmp(page, from, count) == 0;
}

int64_t pwrite(int file, const uint8_t *from, usize count, int64_t at) {
    if (!is_within(file, at, count)) return fail(EBADF);
    if (count == SECTOR && at % SECTOR == 0 && are_zeros(from, SECTOR))
        return erase((uint64_t)at) ? (int64_t)count : fail(EIO);
    if ((uint64_t)at % PAGE + count > PAGE) return fail(EBADF);
    return program((uint64_t)at, from, (size_t)count) ? (int64_t)count : fail(EIO);
}

int open(const char *name, int how, ...) {
    (void)name, (void)how;
    return FLASH;
}

/* The size of the flash is all that is asked for: Linux has it at byte 40, the kind of the file, a plain one, at byte 28,
 * and at byte 0 which of these are told. */
int statx(int folder, const char *name, int how, int wanted, uint8_t *into) {
    (void)folder, (void)name, (void)how, (void)wanted;
    uint32_t told = 0x7ff;
    uint16_t kind = 0100644;
    uint64_t size = size_of_flash();
    memset(into, 0, 256);
    memcpy(into, &told, sizeof told);
    memcpy(into + 28, &kind, sizeof kind);
    memcpy(into + 40, &size, sizeof size);
    return 0;
}

int close(int file) {
    (void)file;
    return 0;
}

int64_t __sysv_signal(int number, int64_t handler) {
    (void)number, (void)handler;
    return 0;
}
