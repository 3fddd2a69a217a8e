// Small programs, on which the explorer is tried. This head is that of each: atomic steps, and threads by number.
#include "explorer.h"
#include <stddef.h>

typedef uint64_t atomic(uint64_t *at, uint64_t given, uint64_t other, uint32_t site);
atomic explored_load64, explored_store64, explored_swap64, explored_add64, explored_exchange64;
int explored_pthread_create(uint64_t *name, void *attributes, void *(*start)(void *), void *given);
int explored_pthread_join(uint64_t name, void **result);
int explored_sched_yield(void);
int64_t explored_syscall(int64_t number, uint64_t first, uint64_t second, uint64_t third, void *fourth, ...);
void *explored_malloc(uint64_t size);
void explored_free(void *block);

const struct site explored_sites[] = {{"small program", NO_COUNT}};

static inline uint64_t load(uint64_t *at) { return explored_load64(at, 0, 0, 0); }
static inline void store(uint64_t *at, uint64_t value) { explored_store64(at, value, 0, 0); }
static inline uint64_t swap(uint64_t *at, uint64_t value) { return explored_swap64(at, value, 0, 0); }
static inline uint64_t add(uint64_t *at, uint64_t value) { return explored_add64(at, value, 0, 0); }
static inline uint64_t exchange(uint64_t *at, uint64_t from, uint64_t to) { return explored_exchange64(at, from, to, 0); }
static inline void sleep_while(uint64_t *at, uint32_t value) { explored_syscall(202, (uint64_t)at, 0, value, NULL); }
static inline void wake_all(uint64_t *at) { explored_syscall(202, (uint64_t)at, 1, 9, NULL); }

// What the threads do that a program starts.
static void other(void);

static void *run_other(void *given) {
    other();
    return given;
}

// The first thread of a program: how many others it starts, what it does before that and beside them, and whether it fails once
// they have ended.
#define PROGRAM(count, before, beside, fails)                                                                 \
    int explored_main(void) {                                                                                 \
        uint64_t names[count];                                                                                \
        before;                                                                                               \
        for (int k = 0; k < count; k++) explored_pthread_create(&names[k], NULL, run_other, NULL);            \
        beside;                                                                                               \
        for (int k = 0; k < count; k++) explored_pthread_join(names[k], NULL);                                \
        return fails;                                                                                         \
    }

// A word that is set back before each execution.
#define WORD __attribute__((section("explored_words"))) static uint64_t

// program: a_leak_of_some_orders
// Who swaps a word first frees a block. One of the two forgets to.
// wanted: 1 blocks of memory are left, and 0 at the first end
WORD block = 0, first = 0;

static void other(void) { swap(&first, 1); }

PROGRAM(1, block = (uint64_t)explored_malloc(8), if (swap(&first, 1) == 0) explored_free((void *)block), 0)

// program: a_lock_of_one_word
// Three threads take a lock by compare-exchange, each at most twice, and count under it: the count is right if they had it.
// wanted: 39 ends
WORD lock = 0, count = 0, wanted = 0;

static void other(void) {
    for (int tries = 0; tries < 2; tries++) {
        if (exchange(&lock, 0, 1) != 0) continue;
        store(&count, load(&count) + 1);
        wanted++;
        store(&lock, 0);
        break;
    }
}

PROGRAM(2, , other(), load(&count) != wanted)

// program: a_loop_that_ends
// A thread yields until a word is set: each order ends. It sees the word set at its first look, its second, or its third: a round like the one
// before is followed once the word has changed.
// wanted: 3 ends
WORD come = 0;

static void other(void) { store(&come, 1); }

PROGRAM(1, , while (load(&come) == 0) explored_sched_yield(), 0)

// program: a_lost_count
// Two threads count by a load and a store: a count may be lost.
// wanted: the program ends with status 1
WORD count = 0;

static void other(void) { store(&count, load(&count) + 1); }

PROGRAM(1, , other(), load(&count) != 2)

// program: a_lost_wake
// A thread looks, and sleeps whatever has come since: it may sleep permanently.
// wanted: nobody can go on, thread 0 sleeps
WORD come = 0, bed = 0;

static void other(void) {
    store(&come, 1);
    wake_all(&bed);
}

PROGRAM(1, , if (load(&come) == 0) sleep_while(&bed, 0), 0)

// program: a_step_at_freed_memory
// The last of two that hold a block is to free it, and the first one to go frees it too early.
// wanted: a step at a word that was freed
WORD block = 0, gone = 0;

static void other(void) {
    store((uint64_t *)block, 1);
    add(&gone, 1);
}

PROGRAM(1, block = (uint64_t)explored_malloc(8), if (load(&gone) == 0) explored_free((void *)block), 0)

// program: a_wake_that_is_kept
// The same by one word: a sleep at a word that has changed ends at once, so no thread sleeps permanently.
// wanted: 3 ends
WORD come = 0;

static void other(void) {
    store(&come, 1);
    wake_all(&come);
}

PROGRAM(1, , if (load(&come) == 0) sleep_while(&come, 0), load(&come) != 1)

// program: three_that_count
// Three threads each count up by one step: six orders, each of which is an end of its own.
// wanted: 6 ends
WORD count = 0;

static void other(void) { add(&count, 1); }

PROGRAM(2, , other(), load(&count) != 3)

// program: two_loads_and_stores
// Two threads each store a word of their own and read the other's: that both read nothing is no end of any order.
// wanted: 3 ends
WORD one = 0, two = 0, seen = 0;

static void other(void) {
    store(&two, 1);
    seen = load(&one);
}

PROGRAM(1, , store(&one, 1); uint64_t found = load(&two), found == 0 && seen == 0)
