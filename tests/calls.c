// Notes the calls of a program that decide what a disk keeps of its writes, in their order, in the file that CALLS names:
//   W  bytes at a place of a file: 8 bytes of the place, 8 of their number, and the bytes
//   S  a file, or a folder, is on the disk
//   A  bytes were written to standard output: 8 bytes with their number
// It is loaded before the C library, and makes each call as it is.
#define _GNU_SOURCE
#include <dlfcn.h>
#include <fcntl.h>
#include <stdint.h>
#include <stdlib.h>
#include <unistd.h>

#define BELOW(name) ((__typeof__(&name))dlsym(RTLD_NEXT, #name))

static void note(const void *bytes, size_t count) {
    static int notes = -1;
    if (notes < 0) notes = open(getenv("CALLS"), O_WRONLY | O_CREAT | O_APPEND | O_CLOEXEC, 0600);
    if (BELOW(write)(notes, bytes, count) != (ssize_t)count) abort();
}

static void note_number(uint64_t number) { note(&number, sizeof number); }

ssize_t pwrite(int file, const void *from, size_t count, off_t at) {
    ssize_t done = BELOW(pwrite)(file, from, count, at);
    if (done < 0) return done;
    note("W", 1), note_number((uint64_t)at), note_number((uint64_t)done), note(from, (size_t)done);
    return done;
}

static int noted(int done) {
    if (!done) note("S", 1);
    return done;
}

int fdatasync(int file) { return noted(BELOW(fdatasync)(file)); }

int fsync(int file) { return noted(BELOW(fsync)(file)); }

ssize_t write(int file, const void *from, size_t count) {
    ssize_t done = BELOW(write)(file, from, count);
    if (file == STDOUT_FILENO && done > 0) note("A", 1), note_number((uint64_t)done);
    return done;
}
