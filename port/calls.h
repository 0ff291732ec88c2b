// The system calls of the program. A count has 64 bits on every processor, whatever the size of `size_t`.
#pragma once
#include <stddef.h>
#include <stdint.h>

typedef uint64_t usize;

// The result of an allocation: whether there was room, and where.
struct taken {
    uint64_t well, at;
};

// Allocation on 64-bit processors, and on 32-bit ones, for which `addresses32.py` rewrites the calls.
struct taken rattle_alloc(usize count, usize alignment);
struct taken rattle_realloc(void *old, usize kept, usize count, usize alignment);
void node_alloc(struct taken *taken, usize count, usize alignment);
void node_realloc(struct taken *taken, void *old, usize kept, usize count, usize alignment);
void rattle_dealloc(void *old);

int64_t rattle_arg(usize place, uint8_t *into, usize room);
int64_t rattle_env(const uint8_t *name, uint8_t *into, usize room);
int64_t rattle_env_at(usize place, uint8_t *into, usize room);
void rattle_set_errno(int number);
int rattle_errno(void);

int64_t read(int file, uint8_t *into, usize count);
int64_t write(int file, const uint8_t *from, usize count);
int64_t pread(int file, uint8_t *into, usize count, int64_t at);
int64_t pwrite(int file, const uint8_t *from, usize count, int64_t at);
int open(const char *name, int how, ...);
int statx(int folder, const char *name, int how, int wanted, uint8_t *into);
int close(int file);
int64_t __sysv_signal(int number, int64_t handler);
