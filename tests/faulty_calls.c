// Lets calls of a program fail: those of the name FAULT_CALL from the FAULT_FROM-th to the FAULT_TO-th, in the way FAULT_KIND:
//   a number   the call fails with this error, and nothing is done
//   byte       one byte is transferred, half: half of them, none: 0 is answered
//   torn       half of the bytes are transferred, and the call fails with EIO; done: all are, and it fails
// With FAULT_COUNT the number of these calls is written to that file at the end. With FAULT_NO_CACHE there is no memory
// for a block as long as an image. It is loaded before the C library.
#define _GNU_SOURCE
#include <dlfcn.h>
#include <errno.h>
#include <fcntl.h>
#include <stdarg.h>
#include <stdio.h>
#include <stdlib.h>
#include <string.h>
#include <sys/stat.h>
#include <unistd.h>

#define BELOW(name) ((__typeof__(&name))dlsym(RTLD_NEXT, #name))

enum { LARGE = 32768 };

static long calls;

static long number(const char *name) {
    const char *text = getenv(name);
    return text ? atol(text) : 0;
}

// Whether this call is one that is to fail.
static int fails(const char *name) {
    const char *wanted = getenv("FAULT_CALL");
    if (!wanted || strcmp(wanted, name)) return 0;
    calls++;
    return calls >= number("FAULT_FROM") && calls <= number("FAULT_TO");
}

static int is_kind(const char *kind) {
    const char *wanted = getenv("FAULT_KIND");
    return wanted && !strcmp(wanted, kind);
}

__attribute__((destructor)) static void tell(void) {
    const char *path = getenv("FAULT_COUNT");
    FILE *file = path ? fopen(path, "w") : NULL;
    if (!file) return;
    fprintf(file, "%ld\n", calls);
    fclose(file);
}

// How many bytes a call that is to fail transfers; *error is then set to what it fails with, or 0.
static size_t faulty(size_t count, int *error) {
    size_t half = count > 1 ? count / 2 : count;
    *error = is_kind("torn") || is_kind("done") ? EIO : (int)number("FAULT_KIND");
    if (is_kind("byte")) return count > 1 ? 1 : count;
    if (is_kind("half") || is_kind("torn")) return half;
    return is_kind("done") ? count : 0;
}

static int fail(int error) {
    errno = error;
    return -1;
}

#define TRANSFER(name, ...)                                                        \
    if (!fails(#name)) return BELOW(name)(__VA_ARGS__);                            \
    int error;                                                                     \
    count = faulty(count, &error);                                                 \
    ssize_t done = count ? BELOW(name)(__VA_ARGS__) : 0;                           \
    return error ? fail(error) : done

ssize_t pread(int file, void *into, size_t count, off_t at) { TRANSFER(pread, file, into, count, at); }
ssize_t pwrite(int file, const void *from, size_t count, off_t at) { TRANSFER(pwrite, file, from, count, at); }
ssize_t read(int file, void *into, size_t count) { TRANSFER(read, file, into, count); }
ssize_t write(int file, const void *from, size_t count) { TRANSFER(write, file, from, count); }

#define PLAIN(name, ...) return fails(#name) ? fail((int)number("FAULT_KIND")) : BELOW(name)(__VA_ARGS__)

int flock(int file, int how) { PLAIN(flock, file, how); }
int fdatasync(int file) { PLAIN(fdatasync, file); }
int fsync(int file) { PLAIN(fsync, file); }
int ftruncate(int file, off_t size) { PLAIN(ftruncate, file, size); }
int link(const char *from, const char *to) { PLAIN(link, from, to); }
int unlink(const char *path) { PLAIN(unlink, path); }
int statx(int folder, const char *restrict path, int flags, unsigned mask, struct statx *restrict found) {
    PLAIN(statx, folder, path, flags, mask, found);
}

// What was closed is closed, also where that fails.
int close(int file) {
    int is_faulty = fails("close");
    int done = BELOW(close)(file);
    return is_faulty ? fail((int)number("FAULT_KIND")) : done;
}

int open(const char *path, int flags, ...) {
    va_list more;
    va_start(more, flags);
    mode_t mode = flags & O_CREAT ? va_arg(more, mode_t) : 0;
    va_end(more);
    PLAIN(open, path, flags, mode);
}

int fcntl(int file, int command, ...) {
    va_list more;
    va_start(more, command);
    long word = va_arg(more, long);
    va_end(more);
    PLAIN(fcntl, file, command, word);
}

void *malloc(size_t size) {
    if (size >= LARGE && getenv("FAULT_NO_CACHE")) return NULL;
    return BELOW(malloc)(size);
}
