// Runs a small program of few threads again and again, each time in another order of its atomic steps.
//
// An execution: `instrument.py` has made calls of these files out of each atomic instruction, and out of each call by which the
// program starts, joins, parks or wakes a thread, allocates, or asks the system for something. The threads are coroutines of one
// kernel thread. A thread runs up to its next step, and then the explorer chooses a thread. The heap is an arena. The arena, and
// the words that the program may write outside of it, are set back before each execution.
//
// A step: an atomic instruction; a park, a wake of parked threads; a yield; a join. That the count of an `Arc` goes up is none,
// since no other thread can tell when it does: the thread that counts holds one already.
//
// A fault: no thread can go on though one is left, asleep or in a loop in which nothing changes, which is how a lost wake shows;
// a status other than 0; a trap, an abort, a bad address; a step at a word that was freed; a block that is freed twice; blocks
// left at the end, if the first execution left fewer or more.
//
// The ways to explore:
//
//   races               every order, except that two count as one if they differ only in neighbours that do not touch one
//                       another: each race that is seen is turned around, and what was tried is tried again only after a
//                       step has touched it
//   states              every order, but an execution ends at a state whose past was seen before. Each step that could write
//                       counts as a write, so the only reduction shared with `races` is that steps at two words change places
//   plain               every order without any reduction: for programs of few steps
//   preemptions P       as `states`, of the orders in which at most P times another goes on though the thread that ran could
//   replay 3x0,2x1..    one order: three steps of thread 0, two of thread 1. It prints each step
//
// Not explored: weaker memory orders; races of plain loads and stores, which the language excludes; more threads, steps or words
// than the limits below; a read of freed memory that is no step, except that freed bytes are overwritten. A thread that yields
// goes on once a word that it looked at since its last yield was changed. Otherwise it goes on only if it saw other than in its
// round before, at most MOST_YIELDS times. If no other thread can go on, there is no such bound, and a round like the one before
// is followed three times. An order in which one thread makes more than MOST_ALONE steps while another could go on is given up,
// and counted. States are told apart by 64 bits of what led there.
#pragma once
#define _GNU_SOURCE
#include <stdint.h>

enum { MOST_THREADS = 8, NOBODY = 8, MOST_STEPS = 6000, MOST_FRAMES = 12, MOST_SEEN = 256, MOST_ALONE = 400, MOST_YIELDS = 2, STACK_BYTES = 1 << 20 };

enum kind { NOTHING, LOAD, STORE, SWAP, ADD, SUB, AND, OR, XOR, EXCHANGE, PARK, WAKE, YIELD, JOIN };

// What a thread does next: an atomic instruction at an address, or a call.
struct step {
    enum kind kind;
    uint32_t bytes, site;
    int has_end; // a park that ends by itself
    uint64_t address, first, second;
};

// The function of an atomic instruction, and whether it counts the holders of an `Arc`.
enum count { NO_COUNT, COUNTS_UP, COUNTS_DOWN };
struct site {
    const char *function;
    enum count count;
};
extern const struct site explored_sites[];

enum state { ABSENT, READY, RUNS, SLEEPS, ENDED };

struct thread {
    uint64_t stack_pointer;
    enum state state;
    struct step next;
    void *(*start)(void *);
    void *given;
    uint64_t slept_at, slept_since;
    int overslept;
    // Which steps of each thread came before its next one for sure, and a number for all that it has seen.
    uint64_t clock[MOST_THREADS], past;
    // The words that it looked at since its last yield, whether another thread changed one, and what it saw in this round and
    // in the one before.
    uint64_t seen[MOST_SEEN], round, round_before;
    uint32_t seen_count, free_rounds;
    int is_touched, last_event;
};

// The words that a step touches, and whether it may change each.
struct touches {
    int count;
    struct touch {
        uint64_t word;
        int writes;
    } of[2];
};

// A word: its last write, the reads since, as events of this execution or -1, which steps came before these, and numbers for what led there.
struct word {
    uint64_t address, execution, write_past, read_past;
    int writer, readers[MOST_THREADS];
    uint64_t written[MOST_THREADS], read[MOST_THREADS];
};

// A step that was made, and the return addresses of the calls around it.
struct event {
    uint32_t thread;
    uint64_t number, found, frames[MOST_FRAMES];
    struct step step;
};

// Numbers other than 0. One that is asked for is kept, as long as half of the table is free.
struct table {
    uint64_t *keys, size, count;
};

enum outcome { GOES_ON, FINISHED, CUT, FAILED };
enum way { RACES, STATES, PLAIN, PREEMPTIONS, REPLAY };

extern struct event events[MOST_STEPS];
extern uint32_t depth;
extern enum outcome outcome;
extern char reason[300];

// What was asked for.
struct request {
    enum way way;
    uint32_t preemptions;
    uint64_t most;
    double seconds;
    int wrong;
    char **words;
    int word_count;
    const char *schedule;
};
extern struct request request;

static inline uint64_t mix(uint64_t x) {
    x = (x ^ x >> 30) * 0xbf58476d1ce4e5b9ull;
    x = (x ^ x >> 27) * 0x94d049bb133111ebull;
    return x ^ x >> 31;
}

// explorer.c
void note_fault(const char *form, ...) __attribute__((format(printf, 1, 2)));
// The program ends with this fault, in the midst of a step.
#define stop_here(...) (note_fault(__VA_ARGS__), leave())

// system.c
extern uint64_t live_blocks;
void forget_system(void);
int is_live(const void *at);
uint64_t place_in_arena(uint64_t address);
int64_t explored_getrandom(uint8_t *to, uint64_t count);

// threads.c
extern struct thread threads[MOST_THREADS];
extern uint32_t thread_count, running;
extern int program_status;
void make_stacks(void);
void forget_threads(void);
void make_thread(void *(*start)(void *), void *given);
void run_thread(uint32_t thread);
void settle(void);
void end_program(void) __attribute__((noreturn));
void leave(void) __attribute__((noreturn));
int can_go_on(uint32_t thread);

// past.c
extern struct table known_states;
void forget_words(void);
void raise_clock(uint64_t to[MOST_THREADS], const uint64_t from[MOST_THREADS]);
int changes_word(const struct step *step);
struct touches touches_of(const struct step *step);
struct word *word_at(uint64_t address);
void note_step(uint32_t thread);
int is_in(struct table *table, uint64_t key);
int is_known_state(uint32_t last, uint32_t preempted);

// choices.c
void read_schedule(void);
void find_races(void);
uint32_t choose(uint32_t enabled, uint32_t last);
int go_to_next_order(void);
