/*
 * A library between a program and the memory of the C library: refuses requests by their numbers, and counts bytes and blocks.
 *
 *     gcc -shared -fPIC -O2 -o refuse_request.so refuse_request.c
 *     REFUSE_FIRST=7 REFUSE_LAST=9 MEMORY_REPORT=FILE LD_PRELOAD=./refuse_request.so PROGRAM
 *
 * The program's first request has the number 1. Those from REFUSE_FIRST to REFUSE_LAST are refused; without REFUSE_LAST all from REFUSE_FIRST
 * on, without REFUSE_FIRST none. At its end, unless a signal stopped it, the program writes to MEMORY_REPORT how many were refused, how many
 * other threads run, and how many blocks it did not free, as `3 0 0`.
 *
 * Requests are those of `malloc` and `realloc`. One of QUESTION bytes, more than there are, begins a count of bytes and allocates nothing. One
 * of N bytes more, below MOST_ASKED, is refused unless fewer than N were asked for since.
 *
 * `calloc` is neither counted nor refused: the C library alone calls it, for a block of each thread, which it keeps for a later thread. Its
 * blocks are in a room of their own. For Linux with glibc.
 */
#include <errno.h>
#include <fcntl.h>
#include <limits.h>
#include <stdatomic.h>
#include <stddef.h>
#include <stdint.h>
#include <stdio.h>
#include <stdlib.h>
#include <sys/stat.h>
#include <sys/syscall.h>
#include <unistd.h>

#define QUESTION ((size_t)1 << 46)
#define MOST_ASKED ((size_t)1 << 30)
#define ROOM ((size_t)1 << 20)

extern void *__libc_malloc(size_t size);
extern void *__libc_realloc(void *block, size_t size);
extern void __libc_free(void *block);

static long first_refused = LONG_MAX, last_refused = LONG_MAX;
static atomic_long requests, refused, blocks;
static atomic_size_t bytes, taken;
static _Alignas(64) char room[ROOM];

static long number_in(const char *variable) {
    const char *text = getenv(variable);
    return text ? atol(text) : LONG_MAX;
}

/* What runs before this is the loader, whose requests are neither counted nor refused. */
__attribute__((constructor)) static void begin(void) {
    first_refused = number_in("REFUSE_FIRST");
    last_refused = number_in("REFUSE_LAST");
    atomic_store(&requests, 0);
    atomic_store(&blocks, 0);
}

/* The folder of a process's threads has a link for each, and two of its own. */
static long other_threads(void) {
    struct stat threads;
    return stat("/proc/self/task", &threads) == 0 ? (long)threads.st_nlink - 3 : 0;
}

/* A thread that has ended gave back its blocks before, so threads are counted first. */
__attribute__((destructor)) static void report(void) {
    const char *file = getenv("MEMORY_REPORT");
    int descriptor = file ? open(file, O_WRONLY | O_CREAT | O_TRUNC, 0644) : -1;
    long threads = other_threads();
    if (descriptor >= 0) {
        dprintf(descriptor, "%ld %ld %ld\n", atomic_load(&refused), threads, atomic_load(&blocks));
    }
}

/* Ends the program without a call of what is registered for its end. */
void _exit(int status) {
    report();
    syscall(SYS_exit_group, status);
    __builtin_unreachable();
}

/* Counts a request. If it is refused, the caller returns null. */
static int is_refused(size_t size) {
    long number = atomic_fetch_add(&requests, 1) + 1;
    atomic_fetch_add(&bytes, size);
    if (number < first_refused || number > last_refused) {
        return 0;
    }
    atomic_fetch_add(&refused, 1);
    errno = ENOMEM;
    return 1;
}

static void *taken_block(size_t size) {
    void *block = __libc_malloc(size);
    if (block) {
        atomic_fetch_add(&blocks, 1);
    }
    return block;
}

/* Begins a count, or says whether it is below that many bytes: then it gives a block. */
static void *answer(size_t most) {
    if (most == 0) {
        atomic_store(&bytes, 0);
    }
    return most == 0 || atomic_load(&bytes) < most ? taken_block(1) : NULL;
}

void *malloc(size_t size) {
    if (size >= QUESTION && size - QUESTION < MOST_ASKED) {
        return answer(size - QUESTION);
    }
    return is_refused(size) ? NULL : taken_block(size);
}

void *realloc(void *block, size_t size) {
    if (!block) {
        return malloc(size);
    }
    return is_refused(size) ? NULL : __libc_realloc(block, size);
}

/* Nothing of the room is given twice. It is all zeros. */
void *calloc(size_t count, size_t size) {
    size_t wanted = (count * size + 63) / 64 * 64;
    size_t at = atomic_fetch_add(&taken, wanted);
    if (at + wanted > ROOM) {
        errno = ENOMEM;
        return NULL;
    }
    return room + at;
}

void free(void *block) {
    int is_in_room = (uintptr_t)block - (uintptr_t)room < ROOM;
    if (block && !is_in_room) {
        atomic_fetch_sub(&blocks, 1);
        __libc_free(block);
    }
}
