// What the explored program asks of the system, apart from threads. Its heap is an arena from which each block is taken once, so
// that freed memory is known permanently.
#include "explorer.h"
#include <stdio.h>
#include <string.h>

enum { ARENA_BYTES = 64 << 20, GRAIN = 16 };
enum { NEVER_TAKEN, LIVE, FREED };

uint64_t live_blocks;
static char arena[ARENA_BYTES] __attribute__((aligned(4096)));
static uint8_t use[ARENA_BYTES / GRAIN];
static uint64_t taken_bytes, fillings[MOST_THREADS];

void forget_system(void) {
    memset(arena, 0, taken_bytes);
    memset(use, NEVER_TAKEN, taken_bytes / GRAIN + 1);
    memset(fillings, 0, sizeof fillings);
    taken_bytes = live_blocks = 0;
}

// An address in the arena as a small number, and any other as it is.
uint64_t place_in_arena(uint64_t address) {
    uint64_t place = address - (uint64_t)arena;
    return place < ARENA_BYTES ? place : address;
}

static int is_in_arena(const void *at) { return (uint64_t)((const char *)at - arena) < ARENA_BYTES; }

int is_live(const void *at) { return !is_in_arena(at) || use[((const char *)at - arena) / GRAIN] == LIVE; }

static uint64_t *size_of(void *block) { return (uint64_t *)block - 2; }

static void mark_block(char *block, uint64_t size, int as) {
    memset(use + (block - arena) / GRAIN, as, (size + GRAIN - 1) / GRAIN + (size == 0));
}

void *explored_malloc(uint64_t size) {
    uint64_t whole = (size + GRAIN - 1) / GRAIN * GRAIN + 2 * GRAIN;
    if (taken_bytes + whole > ARENA_BYTES) stop_here("the program takes more memory than the arena has");
    char *block = arena + taken_bytes + GRAIN;
    taken_bytes += whole;
    *size_of(block) = size;
    mark_block(block, size, LIVE);
    live_blocks++;
    return block;
}

void explored_free(void *block) {
    if (!block || !is_in_arena(block)) return;
    if (!is_live(block)) stop_here("a block is freed twice");
    uint64_t size = *size_of(block);
    mark_block(block, size, FREED);
    memset(block, 0xdd, size);
    live_blocks--;
}

// What Rattle's allocator returns: whether there was memory, and where.
struct taken {
    uint64_t is_there, at;
};

struct taken explored_rattle_alloc(uint64_t size, uint64_t align) { return (struct taken){1, (uint64_t)explored_malloc(size ? size : align)}; }

struct taken explored_rattle_realloc(void *block, uint64_t old, uint64_t size, uint64_t align) {
    struct taken made = explored_rattle_alloc(size, align);
    memcpy((void *)made.at, block, old < size ? old : size);
    explored_free(block);
    return made;
}

void explored_rattle_dealloc(void *block) { explored_free(block); }

// Random bytes: others at each call, and the same at the same call of a thread in each execution.
int64_t explored_getrandom(uint8_t *to, uint64_t count) {
    uint64_t begin = mix(running * 1000 + ++fillings[running]);
    for (uint64_t k = 0; k < count; k++) to[k] = (uint8_t)mix(begin + k);
    return (int64_t)count;
}

int explored_getentropy(uint8_t *to, uint64_t count) { return explored_getrandom(to, count) < 0; }

int64_t explored_write(int file, const void *from, uint64_t count) {
    (void)file;
    if (request.way == REPLAY) fwrite(from, 1, count, stderr);
    return (int64_t)count;
}

int64_t explored_rattle_arg(uint64_t number, char *to, uint64_t room) {
    if (number >= (uint64_t)request.word_count) return -1;
    uint64_t count = strlen(request.words[number]);
    if (count > room) return -2;
    memcpy(to, request.words[number], count);
    return (int64_t)count;
}

int64_t explored_rattle_arg_count(void) { return request.word_count; }

// The environment is empty. What these are passed does not matter.
int64_t explored_rattle_env(void) { return -1; }

int64_t explored_rattle_env_at(void) { return -1; }

// A library with wrong bodies in it asks for its process: the answer says which of them is asked for.
int explored_getpid(void) { return request.wrong; }

void explored__exit(int status) {
    if (status) stop_here("the program exits with status %d", status);
    end_program();
}

void explored_abort(void) { stop_here("the program aborts"); }
