// The calls that the proved program makes of a system, on a board that has none.
//
// What is proved of the program rests on these calls as it rests on Linux's in `antelope`: nothing below is proved. They are
// called by their usual names, and owe less than a system does. There is one file, the flash, whatever it is called:
//
//   pread    gives what stands in the chip, inverted: the program's erased byte is 0, and its programming sets bits.
//   pwrite   of at most 256 bytes within a page programs. What is written contains what stands there, bit for bit, or it
//            fails; and it fails unless the chip then holds just that. Where the power goes, a front part of the bytes is
//            done; two bytes at an even place are done both or not at all.
//   pwrite   of 4,096 zeros on a sector's start erases that sector, or it fails; and it fails unless the chip then holds
//            just that. Where the power goes, a front part of it is erased.
//   nothing  else writes into the flash, and what pwrite has answered stands there, also without power.
//   read     waits for one byte of the line, so that each command is answered when it is whole. 0 is its end.
//   write    has sent all bytes when it answers.
//
// A call that fails answers -1, and the program ends with a status that says so. What it takes of the heap are its words.
#include "calls.h"
#include "node.h"

enum { PAGE = 256, SECTOR = 4096, LINE_IN = 0, LINE_OUT = 1, FLASH = 3, END = 4, EIO = 5, EBADF = 9 };

// ---- Bytes in memory: what compilers call

static int both_aligned(const void *one, const void *other) {
    return (((uintptr_t)one | (uintptr_t)other) & 7) == 0;
}

void *memcpy(void *into, const void *from, size_t count) {
    typedef uint64_t __attribute__((may_alias)) word;
    uint8_t *to = into;
    const uint8_t *of = from;
    if (both_aligned(into, from))
        for (; count >= 8; count -= 8, to += 8, of += 8) *(word *)to = *(const word *)of;
    while (count--) *to++ = *of++;
    return into;
}

void *memmove(void *into, const void *from, size_t count) {
    uint8_t *to = into;
    const uint8_t *of = from;
    if ((uintptr_t)into <= (uintptr_t)from) return memcpy(into, from, count);
    while (count--) to[count] = of[count];
    return into;
}

void *memset(void *into, int byte, size_t count) {
    typedef uint64_t __attribute__((may_alias)) word;
    uint8_t *to = into;
    if (both_aligned(into, into))
        for (; count >= 8; count -= 8, to += 8) *(word *)to = 0x0101010101010101u * (uint8_t)byte;
    while (count--) *to++ = (uint8_t)byte;
    return into;
}

int memcmp(const void *one, const void *other, size_t count) {
    const uint8_t *a = one, *b = other;
    for (; count--; a++, b++)
        if (*a != *b) return *a - *b;
    return 0;
}

int bcmp(const void *one, const void *other, size_t count) { return memcmp(one, other, count); }

// ---- The heap, for the words alone: of what was taken only the last can grow in its place or be given back

// The ten words that a form has at most and the program's name take 256 bytes each. A list of them has places of 24 bytes, first
// 4, then 8 and 16 elsewhere; and it is copied once without the name.
static _Alignas(16) uint8_t heap[11 * 256 + (4 + 8 + 16 + 16) * 24];
static size_t heap_used, last_taken;
size_t heap_most;

// The last that is taken is so many bytes from here on.
static int take_up_to(size_t begin, usize count) {
    if (count > sizeof heap - begin) return 0;
    last_taken = begin;
    heap_used = begin + (((size_t)count + !count + 15) & ~(size_t)15);
    if (heap_used > heap_most) heap_most = heap_used;
    return 1;
}

static int is_last(const void *taken) { return taken == heap + last_taken; }

void node_alloc(struct taken *taken, usize count, usize alignment) {
    (void)alignment; // never more than 16
    uint8_t *at = heap + heap_used;
    *taken = (struct taken){(uint64_t)take_up_to(heap_used, count), (uintptr_t)at};
}

void node_realloc(struct taken *taken, void *old, usize kept, usize count, usize alignment) {
    if (is_last(old)) {
        *taken = (struct taken){(uint64_t)take_up_to(last_taken, count), (uintptr_t)old};
        return;
    }
    node_alloc(taken, count, alignment);
    if (taken->well) memcpy((void *)(uintptr_t)taken->at, old, (size_t)(kept < count ? kept : count));
}

struct taken rattle_alloc(usize count, usize alignment) {
    struct taken taken;
    node_alloc(&taken, count, alignment);
    return taken;
}

struct taken rattle_realloc(void *old, usize kept, usize count, usize alignment) {
    struct taken taken;
    node_realloc(&taken, old, kept, count, alignment);
    return taken;
}

void rattle_dealloc(void *old) {
    if (is_last(old)) heap_used = last_taken;
}

// ---- The words, and an environment without variables

enum { NO_SUCH = -1, NO_ROOM = -2 };

// The word at a place behind the program's name, which is word 0: how many bytes it has.
int64_t rattle_arg(usize place, uint8_t *into, usize room) {
    const char *word = place == 0 ? "node" : board_word((size_t)place - 1);
    size_t count = 0;
    if (!word) return NO_SUCH;
    for (; word[count]; count++) {
        if (count == room) return NO_ROOM;
        into[count] = (uint8_t)word[count];
    }
    return (int64_t)count;
}

int64_t rattle_env(const uint8_t *name, uint8_t *into, usize room) {
    (void)name, (void)into, (void)room;
    return NO_SUCH;
}

int64_t rattle_env_at(usize place, uint8_t *into, usize room) {
    (void)place, (void)into, (void)room;
    return NO_SUCH;
}

// ---- Why a call failed

static int why;

void rattle_set_errno(int number) { why = number; }
int rattle_errno(void) { return why; }

static int64_t fail(int number) {
    why = number;
    return -1;
}

// ---- The line

// In a script the byte 4 is its end, as Ctrl-D is on a terminal: no command has it. On a line of frames it is a client's
// number, and such a line ends with the power alone.
static int ends_input(int byte) {
    const char *form = board_word(0);
    return byte == END && form && form[0] != 's';
}

int64_t read(int file, uint8_t *into, usize count) {
    static int has_ended;
    if (file != LINE_IN) return fail(EBADF);
    if (has_ended || count == 0) return 0;
    int byte = board_take();
    has_ended = ends_input(byte);
    if (has_ended) return 0;
    into[0] = (uint8_t)byte;
    return 1;
}

int64_t write(int file, const uint8_t *from, usize count) {
    if (file != LINE_OUT) return fail(EBADF);
    for (usize place = 0; place < count; place++) board_put(from[place]);
    return (int64_t)count;
}

// ---- The flash

static int is_within(int file, int64_t at, usize count) {
    uint64_t size = (uint64_t)SECTOR * board_sectors();
    return file == FLASH && at >= 0 && count <= size && (uint64_t)at <= size - count;
}

static int is_read_inverted(uint64_t at, uint8_t *into, size_t count) {
    if (!board_read((uint32_t)(at / SECTOR), (uint32_t)(at % SECTOR), into, count)) return 0;
    for (size_t place = 0; place < count; place++) into[place] = (uint8_t)~into[place];
    return 1;
}

int64_t pread(int file, uint8_t *into, usize count, int64_t at) {
    if (!is_within(file, at, count) || (uint64_t)at % SECTOR + count > SECTOR) return fail(EBADF);
    return is_read_inverted((uint64_t)at, into, (size_t)count) ? (int64_t)count : fail(EIO);
}

static int holds_zeros(const uint8_t *bytes, size_t count) {
    for (size_t place = 0; place < count; place++)
        if (bytes[place]) return 0;
    return 1;
}

static int is_erase(const uint8_t *from, usize count, uint64_t at) {
    return count == SECTOR && at % SECTOR == 0 && holds_zeros(from, SECTOR);
}

static int erase(uint64_t at) {
    uint8_t page[PAGE];
    if (!board_erase((uint32_t)(at / SECTOR))) return 0;
    for (uint64_t end = at + SECTOR; at < end; at += PAGE)
        if (!is_read_inverted(at, page, PAGE) || !holds_zeros(page, PAGE)) return 0;
    return 1;
}

// Whether each bit that stands in the flash is in what is to be written.
static int is_or(const uint8_t *standing, const uint8_t *from, size_t count) {
    for (size_t place = 0; place < count; place++)
        if (standing[place] & ~from[place]) return 0;
    return 1;
}

static int program(uint64_t at, const uint8_t *from, size_t count) {
    uint8_t page[PAGE];
    if (!is_read_inverted(at, page, count) || !is_or(page, from, count)) return 0;
    for (size_t place = 0; place < count; place++) page[place] = (uint8_t)~from[place];
    if (!board_program((uint32_t)(at / SECTOR), (uint32_t)(at % SECTOR), page, count)) return 0;
    return is_read_inverted(at, page, count) && memcmp(page, from, count) == 0;
}

int64_t pwrite(int file, const uint8_t *from, usize count, int64_t place) {
    uint64_t at = (uint64_t)place;
    if (!is_within(file, place, count)) return fail(EBADF);
    if (is_erase(from, count, at)) return erase(at) ? (int64_t)count : fail(EIO);
    if (at % PAGE + count > PAGE) return fail(EBADF);
    return program(at, from, (size_t)count) ? (int64_t)count : fail(EIO);
}

int open(const char *name, int how, ...) {
    (void)name, (void)how;
    return FLASH;
}

// The size of the flash is all that is asked for: Linux has it at byte 40, the kind of the file, a plain one, at byte 28,
// and at byte 0 which of these are told.
int statx(int folder, const char *name, int how, int wanted, uint8_t *into) {
    (void)folder, (void)name, (void)how, (void)wanted;
    const uint32_t told = 0x7ff;
    const uint16_t kind = 0100644;
    const uint64_t size = (uint64_t)SECTOR * board_sectors();
    memset(into, 0, 256);
    memcpy(into, &told, sizeof told);
    memcpy(into + 28, &kind, sizeof kind);
    memcpy(into + 40, &size, sizeof size);
    return 0;
}

int close(int file) {
    (void)file;
    return 0;
}

int64_t __sysv_signal(int number, int64_t handler) {
    (void)number, (void)handler;
    return 0;
}
